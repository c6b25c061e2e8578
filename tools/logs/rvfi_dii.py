"""From RVFI-DII, version 1: binary packets of 88 bytes, as TestRIG's sockets carry them, to RVFI as text, which rvfi.awk reads.

    python3 rvfi_dii.py PACKETS | awk -f rvfi.awk > LOG

Written from memory of RVFI-DII's description in TestRIG (RVFI-DII.md), and tried on packets that were rendered from the bench's alone. Ten numbers
of eight bytes, the lowest byte first, and eight bytes: see the two lists below. What does not count is `-`: many of the models that speak RVFI-DII
do not say what they read, and leave rs1_addr and rs2_addr 0; so a source whose address is 0 is not said. The packet that answers the end of a trace has
`halt` and no instruction, and is left out.
"""

import struct
import sys

NUMBERS = ("order", "pc_rdata", "pc_wdata", "insn", "rs1_rdata", "rs2_rdata", "rd_wdata", "mem_addr", "mem_rdata", "mem_wdata")
BYTES = ("mem_rmask", "mem_wmask", "rs1_addr", "rs2_addr", "rd_addr", "trap", "halt", "intr")
PACKET = struct.Struct("<10Q8B")


def text(said):
    """A packet as a line for rvfi.awk."""
    word = {name: f"{said[name] & 0xFFFFFFFF:08x}" for name in NUMBERS}
    src = [word[f"{name}_rdata"] if said[f"{name}_addr"] else "-" for name in ("rs1", "rs2")]
    flags = [f"{said[name]:x}" for name in ("trap", "halt", "intr", "rs1_addr", "rs2_addr")]
    masks = [f"{said[name] & 15:x}" for name in ("mem_rmask", "mem_wmask")]
    memory = [word["mem_addr"], *masks, word["mem_rdata"], word["mem_wdata"]]
    return " ".join([f"{said['order']:x}", word["insn"], *flags, *src, f"{said['rd_addr']:x}", word["rd_wdata"], word["pc_rdata"], word["pc_wdata"], *memory])


def main(path):
    with sys.stdin.buffer if path == "-" else open(path, "rb") as packets:
        while len(packet := packets.read(PACKET.size)) == PACKET.size:
            said = dict(zip(NUMBERS + BYTES, PACKET.unpack(packet)))
            if said["insn"] or said["trap"] or not said["halt"]:
                print(text(said))
    if packet:
        sys.exit(f"rvfi_dii.py: {len(packet)} bytes are left over after the last packet")


if len(sys.argv) != 2:
    sys.exit("usage: rvfi_dii.py PACKETS")
main(sys.argv[1])
