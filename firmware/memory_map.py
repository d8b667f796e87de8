"""The regions of docs/memory-map.md that the kit's tools name, and where the ROM is entered."""
PERIPHERALS = range(0x0200)
RAM = range(0x0200, 0x2200)
METADATA = range(0x0240, 0x0290)
VECTORS = range(0xFFE0, 0x10000)
ROM_ENTRY = 0xA000
