"""Short ways to run the program over files in memory."""

from image_tool.flash import Bench
from image_tool.host import MemHost
from image_tool.image import Image, read_image, read_spec, write_image
from image_tool.tool import Tool

NVS = "bank=erasing/4/512/2,area=nvs/main/0/0/2"
ZMS = "bank=rewritable/16/512/2,area=zms/main/0/0/2"
FCB = "bank=erasing/4/512/2,area=fcb/main/0/0/2"
ALL = ("bank=erasing/4/512/6,bank=rewritable/16/512/2,area=nvs/n/0/0/2,area=fcb/f/0/2/2,"
       "area=zms/z/1/0/2,area=sel/s/0/4/2")
NVS4 = "bank=erasing/4/512/4,area=nvs/main/0/0/4"
EMPTY_CYCLE_1 = "61 01 FF FF FF FF FF FF 00 00 00 00 00 00 00 00"
NAME_A_CYCLE_1 = "CA 01 01 00 20 29 00 80 61 00 00 00 00 00 00 00"
HEADER_0 = "EE EE FF C0 01 FF 00 00"


def times(count: int, byte: str) -> str:
    return byte * count


def image_of(spec: str, patches=()) -> bytes:
    """The image file of SPEC, all FF but for the patches: bank, place, bytes in hexadecimal."""
    image = read_spec(spec)
    data = [bytearray(raw) for raw in image.data]
    for bank, at, text in patches:
        raw = bytes.fromhex(text)
        data[bank][at:at + len(raw)] = raw
    return write_image(Image(image.version, image.banks, image.areas, [bytes(raw) for raw in data]))


class Result:
    """What one run printed and left."""

    def __init__(self, host: MemHost, tool: Tool, status: int) -> None:
        self.host, self.tool, self.status = host, tool, status
        self.text = host.printed.decode()
        self.answers = self.text.split("\n")[:-1]

    @property
    def out(self) -> bytes:
        return self.host.files["out"]

    @property
    def image(self) -> Image:
        return read_image(self.out)

    def bank(self, number: int = 0) -> bytes:
        return self.image.data[number]


def command(words, files=None, check=True, deep=1) -> Result:
    host = MemHost()
    host.files.update(files or {})
    tool = Tool(host, Bench(), check, deep)
    status = tool.main(list(words))
    return Result(host, tool, status)


def run(image, *lines, word="run", check=True, deep=1) -> Result:
    """`run`, or another command, on the image of a spec word or on the bytes of a file."""
    raw = image if isinstance(image, bytes) else image_of(image)
    script = "".join(line + "\n" for line in lines).encode()
    return command([word, "in", "script", "out"], {"in": raw, "script": script}, check, deep)


def dump(raw: bytes) -> str:
    return command(["dump", "in"], {"in": raw}).text
