"""The pictures of README.md, as SVG."""
from html import escape

from reference import KEY, MAC, METADATA, PERIPHERALS, PROGRAM, RAM, ROM, STACK, VECTORS

INK, PAPER, TINT, ACCENT = "#1f2a37", "#ffffff", "#eef2f7", "#b45309"


class Picture:
    def __init__(self, width, height, title):
        self.size, self.title, self.parts = (width, height), title, []

    def add(self, name, text=None, **attributes):
        words = " ".join(f'{key.replace("_", "-")}="{value}"' for key, value in attributes.items())
        self.parts.append(f"<{name} {words}/>" if text is None
                          else f"<{name} {words}>{escape(text)}</{name}>")

    def text(self, x, y, text, anchor="middle", size=13, **attributes):
        self.add("text", text, x=x, y=y, text_anchor=anchor, font_size=size,
                 **{"fill": INK, **attributes})

    def box(self, x, y, width, height, *lines, fill=TINT, stroke=INK):
        """A box with its lines, the first of them bold."""
        self.add("rect", x=x, y=y, width=width, height=height, rx=4, fill=fill, stroke=stroke)
        top = y + height / 2 + 5 - 8 * (len(lines) - 1)
        for number, line in enumerate(lines):
            self.text(x + width / 2, top + 16 * number, line, size=12 if number else 13,
                      font_weight="normal" if number else "bold")

    def arrow(self, x1, y1, x2, y2, both=False, **attributes):
        ends = {"marker_end": "url(#head)"}
        if both:
            ends["marker_start"] = "url(#head)"
        self.add("line", x1=x1, y1=y1, x2=x2, y2=y2,
                 **{"stroke": INK, "stroke_width": 1.5, **ends, **attributes})

    def svg(self):
        width, height = self.size
        return "\n".join([
            f'<svg xmlns="http://www.w3.org/2000/svg" viewBox="0 0 {width} {height}" '
            f'width="{width}" height="{height}" font-family="Helvetica, Arial, sans-serif" '
            f'role="img">',
            f"<title>{escape(self.title)}</title>",
            '<defs><marker id="head" viewBox="0 0 8 8" refX="7" refY="4" markerWidth="7" '
            f'markerHeight="7" orient="auto-start-reverse"><path d="M0 0L8 4L0 8z" fill="{INK}"/>'
            "</marker></defs>",
            f'<rect width="{width}" height="{height}" fill="{PAPER}"/>',
            *self.parts, "</svg>", ""])


def device():
    """docs/device.svg: the bus, its masters, what watches it, and the memory map."""
    picture = Picture(820, 416, "The device: bus masters, monitors, memory map")
    for x, *lines in ((180, "processor", "MSP430, 16 bits"),
                      (350, "attestation ROM", "in the processor's place,",
                       "for requests with a token"),
                      (560, "DMA engine", "its own access a step")):
        picture.box(x, 20, 150, 60, *lines)
        picture.arrow(x + 75, 80, x + 75, 108)
    picture.box(180, 110, 530, 46, "monitors",
                "a step that breaks one of the rules is not made, and the device resets",
                fill="#fef3c7", stroke=ACCENT)
    picture.arrow(445, 156, 445, 188)
    picture.add("rect", x=20, y=190, width=780, height=24, fill=INK)
    picture.text(410, 207, "bus: in a step one access of processor or ROM, then one of the DMA",
                 fill=PAPER)
    for x, width, region, *lines in (
            (20, 140, PERIPHERALS, "timer, serial port,", "pins, DMA registers"),
            (170, 130, RAM, f"{MAC.first:04X} decision, MAC", f"{METADATA.first:04X} metadata",
             "globals, stack"),
            (310, 116, STACK, "exclusive stack", f"{STACK.first + 0x60:04X} kept counter"),
            (436, 64, KEY, "device", "key"),
            (510, 100, ROM, "attestation", "ROM"),
            (620, 100, PROGRAM, "program"),
            (730, 70, VECTORS, "vectors")):
        name = " RAM" if region == RAM else ""
        picture.arrow(x + width / 2, 214, x + width / 2, 248, both=True)
        picture.box(x, 250, width, 82, f"{region.first:04X}{name}", *lines)
    picture.box(20, 20, 130, 136, "outside", "the script:", "bytes, pins,", "DMA starts,", "resets",
                fill=PAPER)
    picture.add("path", d="M20 88H8V291H18", fill="none", stroke=INK, stroke_width=1.5,
                marker_end="url(#head)")
    picture.box(170, 362, 630, 40, "EXEC and AUX, shown in the metadata",
                "1 where the region ran whole: undisturbed (EXEC), or with its own handlers alone (AUX)",
                fill="#dcfce7", stroke="#166534")
    picture.arrow(235, 362, 235, 334)
    return picture.svg()


def attested_round():
    """docs/round.svg: a request, a run, a report and a verdict."""
    picture = Picture(820, 402, "A round: request, run, report, verdict")
    picture.box(20, 20, 300, 56, "verifier", "has the key, the image and a policy")
    picture.box(500, 20, 300, 56, "device", "has the key, and runs the image")
    for x in (170, 650):
        picture.add("line", x1=x, y1=76, x2=x, y2=358, stroke=INK, stroke_dasharray="4 4")
    picture.arrow(170, 104, 648, 104)
    picture.text(410, 97, "request: challenge, counter, token")
    picture.box(20, 118, 300, 60, "request", "32 fresh bytes, a counter above the last one,",
                "and the HMAC of both under the key", fill=PAPER)
    picture.box(20, 190, 300, 44, "policy", "bounds of region and output, requests", fill=PAPER)
    for y, *lines in ((118, "1  writes request and bounds", "to the metadata"),
                      (170, "2  runs the region", "which writes the output; EXEC is 1"),
                      (222, "3  calls the attestation ROM",
                       "another token, or an old counter, is denied"),
                      (274, "4  the ROM keeps the counter and attests",
                       "MAC of metadata, region, output")):
        picture.box(500, y, 300, 44, *lines, fill=PAPER)
    picture.arrow(648, 348, 172, 348)
    picture.text(410, 341, "report: challenge, counter, bounds, EXEC, output, MAC")
    picture.box(20, 358, 300, 34, "verdict: accept, or what differs", fill="#dcfce7",
                stroke="#166534")
    return picture.svg()
