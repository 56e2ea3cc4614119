"""C of the kind that is generated from a CAN database, and pairs of texts in a folder."""
import os

SIGNALS = ["engine_speed", "oil_temperature", "wheel_speed_front_left", "mode", "yaw_rate", "checksum"]


def signals(number):
    """The signals of a message, from two on."""
    return [SIGNALS[(number + i) % 6] for i in range(2 + number % 4)]


def pack(name, signals):
    """The lines of the function that packs a message of signals with 16 bits."""
    lines = [f"int {name}_pack(", "    uint8_t *dst_p,", f"    const struct {name}_t *src_p,", "    size_t size)", "{"]
    lines += [f"    uint16_t {signal};" for signal in signals]
    lines += ["", f"    if (size < {name.upper()}_LENGTH) {{", "        return (-EINVAL);", "    }", ""]
    lines += [f"    memset(dst_p, 0, {2 * len(signals)});", ""]
    for i, signal in enumerate(signals):
        lines += [
            f"    {signal} = (uint16_t)src_p->{signal};",
            f"    dst_p[{2 * i}] |= pack_left_shift_u16({signal}, 0u, 0xffu);",
            f"    dst_p[{2 * i + 1}] |= pack_right_shift_u16({signal}, 8u, 0xffu);",
        ]
    return lines + ["", f"    return ({2 * len(signals)});", "}", ""]


def write_source(folder, text):
    """An empty header bench.h and this source bench.c; gives the bytes of the source."""
    for name, content in (("bench.h", ""), ("bench.c", text)):
        with open(os.path.join(folder, name), "w", encoding="ascii") as f:
            f.write(content)
    return os.path.getsize(os.path.join(folder, "bench.c"))
