"""What the generators of golden files share: the id of a version, and a constant of bytes as an array of Rust."""


def version_id(term, slot, seq):
    """RFC 9562, section 5.8: version 8, with the term, the slot and the sequence number."""
    return (term << 80 | 8 << 76 | slot << 64 | 2 << 62 | seq).to_bytes(16, "big")


def show(name, octets):
    print(f"const {name}: [u8; {len(octets)}] = [")
    for at in range(0, len(octets), 16):
        print("    " + " ".join(f"0x{octet:02x}," for octet in octets[at : at + 16]))
    print("];")
