"""A guest that writes numbered sectors, and what a disk must have once some of its numbers were seen."""
from cases import expect

SECTORS, SECTOR_BYTES = 32, 137

# A guest that writes sector after sector of track 0, each of 137 equal bytes, from 00 on one more each time, and prints each byte once it
# has read its sector back. At 0000 LXI SP,0800; MVI E,C0; MVI A,03; OUT 10; MVI A,15; OUT 10; drive 0 (XRA A; OUT 08), head down (MVI A,04;
# OUT 09). At 0014 it waits for its sector (CALL 0060: IN 09; CMP E; JNZ 0060; RET), begins to write (MVI A,80; OUT 09), and writes 137 times
# C (MVI B,89; at 001D IN 08; RRC; JC 001D; MOV A,C; OUT 0A; DCR B; JNZ 001D); it waits for the sector again and reads it (MVI B,89; at 002F
# IN 08; RLC; JC 002F; IN 0A; DCR B; JNZ 002F; MOV D,A), prints what it read last (at 003C IN 10; ANI 02; JZ 003C; MOV A,D; OUT 11), and goes
# on with the next byte and the next sector (INR C; INR E; INR E; JNZ 0014; MVI E,C0; JMP 0014).
NUMBERED = """\
mem 0000 31 00 08 1E C0 3E 03 D3 10 3E 15 D3 10 AF D3 08 3E 04 D3 09
mem 0014 CD 60 00 3E 80 D3 09 06 89 DB 08 0F DA 1D 00 79 D3 0A 05 C2 1D 00
mem 002A CD 60 00 06 89 DB 08 07 DA 2F 00 DB 0A 05 C2 2F 00
mem 003B 57 DB 10 E6 02 CA 3C 00 7A D3 11
mem 0046 0C 1C 1C C2 14 00 1E C0 C3 14 00
mem 0060 DB 09 BB C2 60 00 C9
"""

# How often at most a sector was written again that nobody has seen yet: what is printed waits for the terminal, sixteen bytes of it.
AHEAD = 3


def numbers(count):
    """What the guest prints, so many bytes of it."""
    return bytes(it % 256 for it in range(count))


def expect_sectors(image, shown):
    """Whether an image has each sector whose number was seen, or a later one in its place; and no sector is torn."""
    expect(shown, numbers(len(shown)), "what was shown")
    for sector in range(SECTORS):
        found = image[sector * SECTOR_BYTES : (sector + 1) * SECTOR_BYTES]
        expect(len(set(found)), 1, f"how many different bytes sector {sector} has, which begins with {found[:4].hex()}")
        seen = [it for it in range(sector, len(shown), SECTORS)]
        later = {it % 256 for it in range(seen[-1] if seen else sector, len(shown) + AHEAD * SECTORS, SECTORS)}
        if found[0] not in later and (seen or found[0] != 0):
            expect(found[0], sorted(later), f"sector {sector}, after {len(shown)} numbers")
