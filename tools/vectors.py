#!/usr/bin/env python3
"""Prints crates/um_code/proofs/Vectors.antt from vectors/code.in and vectors/code.out: bursts that another program made, to be compared
with what the definitions compute. Run it in the top folder."""

HEAD = """\
-- Bursts with the coded bits that libosmocoding made, in layouts of GSM 05.02 written apart from these sources (vectors/code.in,
-- vectors/code.out), and the same by the definitions, computed: so the tables of the standards in these definitions are compared with
-- others. `tools/vectors.py` prints this file.
use Prim.Native.String.{String}
use Rattle.std.specs.Prelude.{◌≡◌, ◌++◌, ℕ, List, [], ◌∷◌, map, take, flat_map, codes}
use Rattle.std.proofs.Common.{refl}
use Rattle.um_driver.specs.um_lines.Fields.{octets_from_hex}
use Rattle.um_block.specs.burst_map.training_seq.Sequences.{bits_from_ascii}
use Rattle.um_block.specs.bit_blocks.Octets.{bits_of}
use Rattle.um_block.specs.Computed.{sent_block, sent_access, sent_sync}
use Rattle.um_block.specs.fire_code.Crcs.{xcch_crc, rach_crc, sch_crc}
use Rattle.um_block.specs.fire_code.Registers.{low_bits}
use Rattle.um_block.specs.interleave.Bursts.{interleaved}
use Rattle.um_block.specs.interleave.ColumnPositions.{coded_bit_number_in_burst, coded_bit_number_in_column}

-- bits in hexadecimal octets, the first bit of an octet least significant
abbrev packed : (digits : List ℕ) → List ℕ
packed digits = bits_of (octets_from_hex digits)

-- what the definitions compute, and what libosmocoding made: four bursts, an access burst, a synchronisation burst
abbrev block : (tsc : ℕ) (octets front back : String) → List ℕ × List ℕ
block tsc octets front back =
    (flat_map (λ burst. burst) (sent_block (octets_from_hex (codes octets)) tsc), packed (codes front ++ codes back))

abbrev access : (info bsic burst : String) → List ℕ × List ℕ
access info bsic burst = (sent_access (bits_from_ascii (codes info)) (bits_from_ascii (codes bsic)), packed (codes burst))

abbrev sync : (info burst : String) → List ℕ × List ℕ
sync info burst = (sent_sync (bits_from_ascii (codes info)), take 148 (packed (codes burst)))

abbrev AreSame : (rows : List (List ℕ × List ℕ)) → Type 0
AreSame rows = map (λ row. row.0) rows ≡ map (λ row. row.1) rows
"""


def packed(bits):
    """Hexadecimal octets of bits, the first bit of each octet least significant."""
    bits += "0" * (-len(bits) % 8)
    return "".join(f"{int(bits[k:k + 8][::-1], 2):02x}" for k in range(0, len(bits), 8))


def theorems(name, unfolded, rows, size):
    """The rows are all true; so many in a theorem as the prover computes within its memory."""
    text = ""
    for first in range(0, len(rows), size):
        lines = "".join(f"    {row} ∷\n" for row in rows[first:first + size])
        text += f"\n{name}_{first} : AreSame (\n{lines}    []\n    )\nunfolding {unfolded}\n{name}_{first} = refl\n"
    return text


def main():
    bursts = iter(open("vectors/code.out", encoding="ascii").read().splitlines())
    blocks, accesses, syncs = [], [], []
    for line in open("vectors/code.in", encoding="ascii"):
        kind, *words = line.split()
        if kind == "block":
            digits = packed("".join(next(bursts).split()[1] for _ in range(4)))
            blocks.append(f'block {words[0]} "{words[1]}" "{digits[:74]}"\n    "{digits[74:]}"')
        elif kind == "rach":
            accesses.append(f'access "{words[0]}" "{words[1]}" "{packed(next(bursts).split()[2])}"')
        else:
            syncs.append(f'sync "{words[0]}" "{packed(next(bursts).split()[1])}"')
    print(HEAD, end="")
    coded = "coded_bit_number_in_burst coded_bit_number_in_column"
    print(theorems("blocks", f"sent_block xcch_crc low_bits interleaved {coded}", blocks, 8), end="")
    print(theorems("access_bursts", "sent_access rach_crc low_bits", accesses, 56), end="")
    print(theorems("sync_bursts", "sent_sync sch_crc low_bits", syncs, 32), end="")


main()
