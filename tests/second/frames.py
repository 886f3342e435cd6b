"""The binary frames that the programs `texts` and `batch` read.

A frame is a length of 4 bytes, the least first, and then as many bytes. For
`texts` each text is a frame; for `batch` a case is two, manifest and sheet.
"""


def frame(content):
    return len(content).to_bytes(4, 'little') + content


def of_texts(texts):
    return b''.join(map(frame, texts))


def of_cases(cases):
    return b''.join(frame(manifest) + frame(sheet) for manifest, sheet in cases)


def answers(output):
    """The answers in what `batch` wrote, and what follows the last `.` line."""
    found, lines = [], []
    rest = output.split(b'\n')
    last = rest.pop()
    for line in rest:
        if line == b'.':
            found.append(b''.join(each + b'\n' for each in lines))
            lines = []
        else:
            lines.append(line)
    return found, b''.join(each + b'\n' for each in lines) + last
