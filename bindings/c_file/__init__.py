"""The library for C as one file of C: a translation of its object for WebAssembly. README.md is the way in."""
