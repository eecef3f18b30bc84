import os
import sys

import sigrokdecode as srd

# The module stands beside this folder, in the repository and where it is installed; else it is found as any other.
beside = os.path.join(os.path.dirname(os.path.realpath(__file__)), '..', '..', 'python')
if os.path.isdir(beside):
    sys.path.append(beside)
from nt6861 import Chip, SOURCES, pin_word  # noqa: E402

# Places of docs/STATE.md: what the chip does on the bus, and the levels outside.
PHASE, COUNT, SDA, SCL = 22, 24, 33, 34
IDLE, ADDRESS, MATCHED, IGNORING, RECEIVE, TRANSMIT, HELD = range(7)
# II STS: TRX
TRX = 4


class Annotation:
    START, ADDRESS, OWN, ACK, NACK, RECEIVED, SENT, REQUEST, HOLD, STOP = range(10)


class Decoder(srd.Decoder):
    api_version = 3
    id = 'nt6861_ddc'
    name = 'NT6861'
    longname = 'NT6861 monitor microcontroller on DDC2B'
    desc = 'What the proved model of the NT6861 does on a captured bus.'
    license = 'unknown'
    inputs = ['logic']
    outputs = []
    tags = ['Embedded/industrial', 'IC']
    channels = (
        {'id': 'scl', 'name': 'SCL', 'desc': 'Serial clock line'},
        {'id': 'sda', 'name': 'SDA', 'desc': 'Serial data line'},
    )
    optional_channels = ({'id': 'vsync', 'name': 'VSYNC', 'desc': 'Vertical sync input'},)
    options = ({'id': 'ii_adr', 'desc': 'The byte in II ADR', 'default': 0x6E},)
    annotations = (
        ('start', 'START'),
        ('address', 'Address of another device'),
        ('own', 'Address of the chip'),
        ('ack', 'ACK'),
        ('nack', 'NACK'),
        ('received', 'Byte received'),
        ('sent', 'Byte sent'),
        ('request', 'Interrupt request'),
        ('hold', 'SCL held'),
        ('stop', 'STOP'),
    )
    annotation_rows = (
        ('bus', 'Bus', (0, 1, 2, 3, 4, 5, 6, 9)),
        ('requests', 'Requests', (7,)),
        ('holds', 'SCL held', (8,)),
    )

    def __init__(self):
        self.samplerate = None
        self.reset()

    def reset(self):
        self.chip = Chip()
        self.clocks = 0  # of 8 us, given so far
        self.bits = 0  # the last eight bits at rises of SCL
        self.began = 0  # the sample at which the byte under way began
        self.held_since = 0
        self.reading = False  # the host reads: the address had a 1 at its end

    def metadata(self, key, value):
        if key == srd.SRD_CONF_SAMPLERATE:
            self.samplerate = value

    def start(self):
        self.out_ann = self.register(srd.OUTPUT_ANN)
        self.chip.write('IEX', 0x3F)
        self.chip.write('MDCON', 0)
        self.chip.write('IISTS', 0)
        self.chip.write('IIADR', self.options['ii_adr'])

    def tell(self, begin, kind, *texts):
        self.put(begin, self.samplenum, self.out_ann, [kind, list(texts)])

    def pass_time(self):
        if not self.samplerate:
            return
        due = self.samplenum * 125000 // self.samplerate
        if due > self.clocks:
            self.chip.clock('8us', due - self.clocks)
            self.clocks = due

    def let_go(self):
        '''SCL rises while the chip holds it: its firmware has written II DAT just now.'''
        held = self.chip.hold
        self.tell(self.held_since, Annotation.HOLD, 'SCL held %d x 8 us' % held, 'held %d' % held, '%d' % held)
        self.chip.write('CLRFLG', 0x3F)
        self.chip.write('IISTS', TRX if self.reading else 0)
        self.chip.write('IIDAT', 0xFF)
        self.began = self.samplenum

    def level(self, pin, level):
        before = self.chip.state
        if pin == 'SCL' and level and before[PHASE] == HELD:
            self.let_go()
            before = self.chip.state
        requests = self.chip.requests
        after_requests = self.chip.pin(pin, level).requests
        after = self.chip.state
        if pin == 'SCL' and level:
            self.bits = (self.bits << 1 | after[SDA]) & 0xFF
        self.moved(before, after, pin, level)
        for source in SOURCES:
            if source in after_requests and source not in requests:
                self.tell(self.samplenum, Annotation.REQUEST, 'Request %s' % source, source)

    def moved(self, before, after, pin, level):
        was, now = before[PHASE], after[PHASE]
        if pin == 'SDA' and not level and before[SCL] and now == ADDRESS:
            self.tell(self.samplenum, Annotation.START, 'START', 'S')
            self.began = self.samplenum
        elif pin == 'SDA' and now == IDLE and was != IDLE:
            self.tell(self.samplenum, Annotation.STOP, 'STOP', 'P')
        elif was == ADDRESS and now == IGNORING:
            self.tell(self.began, Annotation.ADDRESS, 'Address %02X: another device' % self.bits, '%02X: other' % self.bits, '%02X' % self.bits)
        elif was == ADDRESS and now == MATCHED:
            self.reading = bool(self.bits & 1)
            self.tell(self.began, Annotation.OWN, 'Address %02X: the chip, by %s' % (self.bits, self.chip.address), '%02X: %s' % (self.bits, self.chip.address), '%02X' % self.bits)
        elif pin == 'SCL' and not level and (was, now, after[COUNT]) == (MATCHED, MATCHED, 9):
            self.tell(self.samplenum, Annotation.ACK, 'ACK', 'A')
        elif pin == 'SCL' and level and now == RECEIVE and after[COUNT] == 8 and before[COUNT] == 7:
            self.tell(self.began, Annotation.RECEIVED, 'Byte received %02X' % self.bits, '%02X' % self.bits)
        elif pin == 'SCL' and not level and now == RECEIVE and after[COUNT] in (9, 10) and before[COUNT] == 8:
            pulled = after[COUNT] == 9
            self.tell(self.samplenum, Annotation.ACK if pulled else Annotation.NACK, 'ACK' if pulled else 'NACK', 'A' if pulled else 'N')
        elif pin == 'SCL' and not level and now == TRANSMIT and after[COUNT] == 9:
            self.tell(self.began, Annotation.SENT, 'Byte sent %02X' % self.bits, '%02X' % self.bits)
        elif pin == 'SCL' and level and now == TRANSMIT and after[COUNT] == 10:
            self.tell(self.samplenum, Annotation.NACK if after[SDA] else Annotation.ACK, 'NACK of the host' if after[SDA] else 'ACK of the host', 'N' if after[SDA] else 'A')
        if now == HELD and was != HELD:
            self.held_since = self.samplenum

    def decode(self):
        names = ['SCL', 'SDA', 'VSYNCI'] if self.has_channel(2) else ['SCL', 'SDA']
        last = self.wait()
        for place, name in enumerate(names):
            self.chip.pin(name, last[place])
        while True:
            pins = self.wait([{place: 'e'} for place in range(len(names))])
            self.pass_time()
            # of changes at one sample SCL falls first and rises last: SDA is then taken to have changed while SCL was low
            order = (0, 1) if not pins[0] else (1, 0)
            for place in [*order, *range(2, len(names))]:
                if pins[place] != last[place]:
                    self.level(names[place], pins[place])
            last = pins
