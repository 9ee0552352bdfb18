"""Recordings as people have them: WAVE files of 8 to 32 bits or floats, with plain or extensible headers, and FLAC.

    rate, channels = sounds.read(path)      channels[frame, channel] from -1 to 1

WAVE needs numpy alone, FLAC and other kinds the library soundfile; that a file is a sound is told without either. A file that ends
before its header says is refused: a cut-off bell is not measured as a whole one.
"""

import struct
from typing import NamedTuple

from command_line import Ending, Status, read_file

PCM, FLOAT, EXTENSIBLE = 1, 3, 0xFFFE
EXTENSIBLE_TAG_AT = 24  # where an extensible header has its format
CHANNELS_MOST = 2
KINDS = (b"RIFF", b"fLaC", b"FORM", b"OggS", b"RF64", b"caff", b".snd")
OTHER_KINDS = "python3-soundfile"


class Format(NamedTuple):
    """What a WAVE file's header says of its samples."""
    tag: int
    channels: int
    rate: int
    bits: int


def wave_file(rate, data):
    """A WAVE file of two channels of 24 bits, from the bytes of its frames."""
    return struct.pack("<4sI4s4sIHHIIHH4sI", b"RIFF", 36 + len(data), b"WAVE", b"fmt ", 16, PCM, 2, rate, 6 * rate, 6, 24, b"data", len(data)) + data


def frames_of(data):
    """The rate, and the bytes of the frames, of a WAVE file that the program wav made."""
    return struct.unpack_from("<I", data, 24)[0], data[44:]


def is_sound(data):
    """Whether a file begins as sounds do."""
    return data[:4] in KINDS


def chunks(data, path):
    """The chunks of a RIFF file: name, what is there of it, and how long it says that it is."""
    at = 12
    while at + 8 <= len(data):
        name, size = data[at:at + 4], struct.unpack_from("<I", data, at + 4)[0]
        yield name, data[at + 8:at + 8 + size], size
        at += 8 + size + size % 2
    if at == 12:
        raise Ending(f"{path} is no WAVE file that can be read: it has a head and nothing else")


def format_of(chunk, path):
    """The format of a WAVE file, behind an extensible header too."""
    if len(chunk) < 16:
        raise Ending(f"{path} is no WAVE file that can be read: its format is cut off")
    tag, channels, rate, _, _, bits = struct.unpack_from("<HHIIHH", chunk)
    if tag == EXTENSIBLE and len(chunk) >= EXTENSIBLE_TAG_AT + 2:
        tag = struct.unpack_from("<H", chunk, EXTENSIBLE_TAG_AT)[0]
    return Format(tag, channels, rate, bits)


def pcm_numbers(data, bits):
    """Whole numbers of so many bits, the low byte first, as numbers from -1 to 1."""
    import numpy as np
    if bits == 8:
        return (np.frombuffer(data, np.uint8).astype(np.float64) - 128) / 128
    size = bits // 8
    wide = np.zeros((len(data) // size, 4), np.uint8)
    wide[:, 4 - size:] = np.frombuffer(data, np.uint8).reshape(-1, size)
    return wide.view("<i4").ravel() / 2.0 ** 31


def samples(form, data, path):
    """The samples of a WAVE file as numbers."""
    import numpy as np
    if form.tag == PCM and form.bits in (8, 16, 24, 32):
        return pcm_numbers(data, form.bits)
    if form.tag == FLOAT and form.bits in (32, 64):
        return np.frombuffer(data, f"<f{form.bits // 8}").astype(np.float64)
    raise Ending(f"{path} has samples of a kind that isn't read: format {form.tag} of {form.bits} bits (read are whole numbers of 8, 16, 24 and 32 bits and floats of 32 and 64)")


def read_wave(data, path):
    """The rate and the channels of a WAVE file."""
    if data[8:12] != b"WAVE":
        raise Ending(f"{path} is no WAVE file that can be read: it is another kind of RIFF file")
    form = None
    for name, chunk, size in chunks(data, path):
        if name == b"fmt ":
            form = format_of(chunk, path)
        if name == b"data" and form:
            frame = form.channels * form.bits // 8
            if not frame or not form.rate:
                raise Ending(f"{path} is no WAVE file that can be read: its header has no channels, bits or rate")
            if len(chunk) < size or size % frame:
                raise Ending(f"{path} is cut off: its header says {size} bytes of sound, and {len(chunk)} are there" if len(chunk) < size else f"{path} is cut off within a frame")
            return form.rate, samples(form, chunk, path).reshape(-1, form.channels)
    raise Ending(f"{path} is no WAVE file that can be read: it has no {'samples' if form else 'format'}")


def read_other(path):
    """The rate and the channels of FLAC and other kinds, by the library soundfile."""
    try:
        import soundfile
    except ImportError:
        raise Ending(f"{path} is no WAVE file, and to read other kinds the library soundfile is needed: apt install {OTHER_KINDS}", Status.MISSING) from None
    try:
        with soundfile.SoundFile(path) as file:
            rate, frames = file.samplerate, file.frames
            found = file.read(dtype="float64", always_2d=True)
    except (soundfile.LibsndfileError, RuntimeError, OSError) as error:
        raise Ending(f"{path} is no sound that can be read: {str(error).strip()}") from None
    if len(found) != frames:
        raise Ending(f"{path} is cut off: its header says {frames} frames, and {len(found)} are there")
    return rate, found


def read(path):
    """The rate of a sound, and its channels as numbers from -1 to 1."""
    import numpy as np
    data = read_file(path)
    if not is_sound(data):
        raise Ending(f"{path} is no sound that can be read: neither WAVE nor FLAC")
    rate, found = read_wave(data, path) if data[:4] == b"RIFF" else read_other(path)
    if not 1 <= found.shape[1] <= CHANNELS_MOST:
        raise Ending(f"{path} has {found.shape[1]} channels: one or two are read")
    if not np.isfinite(found).all():
        raise Ending(f"{path} has samples that are no numbers")
    return rate, found
