"""The data of a gain map: the XMP packet that goes with the gain image, and the tone map of ISO 21496-1.

A gain image holds for each pixel how much brighter the bright rendition is. Its samples are coded as the packet's
namespace has it: a linear share g of the headroom H, under the transfer curve of BT.709, with

    bright = base * (1 + (H - 1) * g)

ISO 21496-1 has a logarithmic law instead, with a gamma. The tone map here takes the gamma with which both laws agree at
no gain, at full gain and at a sample of one half.
"""

import math

NAMESPACE = "http://ns.apple.com/HDRGainMap/1.0/"
PACKET = """<?xpacket begin="\ufeff" id="W5M0MpCehiHzreSzNTczkc9d"?>
<x:xmpmeta xmlns:x="adobe:ns:meta/">
 <rdf:RDF xmlns:rdf="http://www.w3.org/1999/02/22-rdf-syntax-ns#">
  <rdf:Description rdf:about="" xmlns:HDRGainMap="{namespace}"
   HDRGainMap:HDRGainMapVersion="131072" HDRGainMap:HDRGainMapHeadroom="{headroom:.6f}"/>
 </rdf:RDF>
</x:xmpmeta>
<?xpacket end="r"?>"""

PARTS = 1_000_000  # denominator of every fraction in the tone map
IN_BASE_COLOUR = 0x40  # flag: the gain is applied in the colour space of the base picture
OFFSET = 1e-5  # added to both pictures, so that black has a logarithm


def xmp(headroom):
    """The XMP packet of a gain image, for version 2.0 (131,072 / 65,536) of its namespace."""
    return PACKET.format(namespace=NAMESPACE, headroom=headroom).encode()


def sample(share):
    """The sample from 0 to 1 that codes a linear share of the headroom: the curve of BT.709."""
    return 4.5 * share if share < 0.018 else 1.099 * share**0.45 - 0.099


def share(value):
    """The linear share that a sample codes: the curve's inverse."""
    return value / 4.5 if value < 4.5 * 0.018 else ((value + 0.099) / 1.099) ** (1 / 0.45)


def gamma(headroom):
    """The exponent's inverse with which ISO's law gives at sample 1/2 the gain of the linear law."""
    wanted = math.log2(1 + (headroom - 1) * share(0.5)) / math.log2(headroom)
    return math.log(0.5) / math.log(wanted)


def _fraction(value):
    return round(value * PARTS).to_bytes(4, "big", signed=True) + PARTS.to_bytes(4, "big")


def tone_map(headroom):
    """The payload of a tone map item: a version byte, then ISO 21496-1's metadata for one channel."""
    most = math.log2(headroom)
    versions = bytes(2) + bytes(2)  # the least that a reader must know, and the writer's own
    body = versions + bytes([IN_BASE_COLOUR])
    body += _fraction(0) + _fraction(most)  # headroom of the base picture and of the bright one, as powers of two
    body += _fraction(0) + _fraction(most) + _fraction(gamma(headroom))  # least gain, most gain, gamma
    body += _fraction(OFFSET) + _fraction(OFFSET)
    return b"\0" + body
