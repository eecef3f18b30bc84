'''
What an NT6861 monitor microcontroller does on the bus that was captured: the decoder gives SCL, SDA and VSYNC to the proved model of the chip (module
nt6861) and tells START, each address with its outcome, ACK and NACK, bytes, requests, how long SCL is held, and STOP.

A firmware that answers at once when SCL rises is taken to run beside it: where the chip holds SCL, the capture says when it let go.
'''

from .pd import Decoder
