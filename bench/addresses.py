"""Code at several addresses: there a branch or a loop can be a tenth slower at one than at another."""


def shifts(count):
    """Returns how many bytes to put before the code, for each address: four in turn lie at four places in 64 bytes."""
    return [80 * number for number in range(count)]


def source_before(folder, shift):
    """Writes the assembler file that puts 64 bytes more than `shift` before the code it is linked with, and returns it."""
    source = folder / f"shift-{shift}.s"
    source.write_text(
        f'.section .note.GNU-stack,"",@progbits\n.section .text.shift,"ax",@progbits\n.p2align 6\n.skip {64 + shift}, 0x90\n'
    )
    return source
