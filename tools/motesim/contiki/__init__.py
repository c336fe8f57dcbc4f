"""Programs of motes as C files for Contiki 2.x, and random scenarios that compare two simulators of them."""
