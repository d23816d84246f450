"""Density and speed of sound of a natural gas at 293.15 K and 5 MPa, then an input that is refused: examples/c/properties.c in Python.

    tests/archive gerg_api && python3 python/properties.py
"""
import gerg

file = gerg.read()
gas = {"methane": 0.90, "nitrogen": 0.02, "carbon-dioxide": 0.01, "ethane": 0.05, "propane": 0.02}
found = gerg.density(file, gas, 293.15, 5e6, lo=1000.0, hi=4000.0)
state = found.state
print(f"density         {state.molar_density:.6f} mol/m3 ({state.mass_density:.6f} kg/m3) after {found.trials} trials")
print(f"pressure        {state.pressure:.3f} Pa")
print(f"speed of sound  {state.speed_of_sound:.6f} m/s")

ln_phi = gerg.fugacity(file, gas, 293.15, state.molar_density)
print(f"ln phi          {ln_phi[0]:.6f} (methane) {ln_phi[4]:.6f} (propane)")

try:
    gerg.properties(file, gas, 199.0, 1000.0)
except gerg.Refusal as refusal:
    print(f"at 199 K        refused, number {refusal.number}, value {refusal.value}")
