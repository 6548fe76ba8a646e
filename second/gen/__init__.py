"""The maker of cases: types, values, texts and damage, all drawn from a seed."""
