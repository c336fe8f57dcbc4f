"""The version of motesim and its tools, and the kit with which `motesim` was proved."""
VERSION = '2.0'
KIT = 'rattle-kit-13b logic dac8208d650f15bf'
# The part of a kit that proofs rest on. Kits with other names may have the same logic.
LOGIC = KIT.partition(' ')[2]
