"""Makes the portable forms of what is proved in this checkout: C, assembly and WebAssembly."""
