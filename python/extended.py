"""Hydrogen in the extended range, and a state that the normal range refuses: examples/c/extended.c in Python.

    tests/archive gerg_api && python3 python/extended.py
"""
import gerg

file, hydrogen, densities = gerg.read(), {"hydrogen": 1.0}, []
for t, p in ((77.0, 10e6), (600.0, 60e6)):
    state = gerg.density(file, hydrogen, t, p, lo=100.0, hi=30000.0, range="extended").state
    print(f"{t:.0f} K, {p / 1e6:.0f} MPa")
    print(f"density         {state.molar_density:.6f} mol/m3 ({state.mass_density:.6f} kg/m3), Z {state.compressibility:.6f}")
    print(f"speed of sound  {state.speed_of_sound:.6f} m/s")
    densities.append(state.molar_density)

try:
    gerg.properties(file, hydrogen, 77.0, densities[0])
except gerg.Refusal as refusal:
    print(f"normal, at 77 K refused, number {refusal.number}, value {refusal.value}")
