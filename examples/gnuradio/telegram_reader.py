"""A GNU Radio block that reads tilt telegrams from soft bits and hands on messages."""

import numpy as np
import pmt
from gnuradio import gr

from cinorbis import Telegram, readings_of

PORT = pmt.intern("telegrams")


class telegram_reader(gr.sync_block):
    """Vectors of 32 soft bits, plus for 0 and minus for 1, in; a message for each word out.

    A message is a dictionary: number, refusal, and where the refusal is 0, cylinder, tilt in
    degrees, to ("port", "starboard" or "") and gap. A clean soft bit times `scale` should be some
    hundreds.
    """

    def __init__(self, scale=400.0):
        gr.sync_block.__init__(self, "telegram reader", [(np.float32, 32)], None)
        self.scale, self.number = scale, 0
        self.message_port_register_out(PORT)

    def work(self, input_items, output_items):
        read = Telegram.read_many(readings_of(input_items[0], self.scale).readings, threads=1)
        for i, refusal in enumerate(read.refusal.tolist()):
            message = {"number": self.number, "refusal": refusal}
            if refusal == 0:
                message["cylinder"], message["tilt"] = int(read.cylinder[i]), float(read.tilt[i])
                message["to"], message["gap"] = str(read.to[i]), int(read.gap[i])
            self.message_port_pub(PORT, pmt.to_pmt(message))
            self.number += 1
        return len(read)
