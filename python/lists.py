"""A gas as a chromatograph sends it, in packed decimal: read, used and written again, then a damaged digit: examples/c/lists.c in Python.

    tests/archive gerg_api && python3 python/lists.py
"""
import gerg

data = bytes.fromhex("1001 00901234  1002 00020501  1003 00009999  1004 00048266  1005 00020000")
gas = gerg.read_list(data)
for (component, fraction), parts in zip(gas.items(), gas.parts):
    print(f"component {gerg.COMPONENTS.index(component) + 1:<5} {parts:7} parts, fraction {fraction:.6f}")

state = gerg.density(gerg.read(), gas, 293.15, 5e6, lo=1000.0, hi=4000.0).state
print(f"density         {state.molar_density:.6f} mol/m3 ({state.mass_density:.6f} kg/m3)")
print(f"speed of sound  {state.speed_of_sound:.6f} m/s")

again = gerg.write_list(gas.components, gas.parts)
print(f"written again   {len(again)} bytes, {'the same' if again == data else 'others'}")

try:
    gerg.read_list(data[:16] + b"\x9a" + data[17:])
except gerg.Refusal as refusal:
    print(f"digit above 9   refused, number {refusal.number}, value {refusal.value}")
