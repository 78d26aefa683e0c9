"""The process in which a compiled function runs: its calls stand on standard input, what they leave of memory goes to standard output."""
import ctypes, json, sys

MARGIN, MARK = 256, 0xA5


def call_all():
    """Makes the calls that stand on standard input."""
    shared, name, kinds, result = json.loads(sys.stdin.readline())
    function = getattr(ctypes.CDLL(shared), name)
    integers = {'u8': ctypes.c_uint8, 'u16': ctypes.c_uint16, 'u32': ctypes.c_uint32, 'u64': ctypes.c_uint64, 's8': ctypes.c_int8,
                's16': ctypes.c_int16, 's32': ctypes.c_int32, 's64': ctypes.c_int64}
    function.argtypes = [ctypes.c_void_p if kind == 'ptr' else integers[kind] for kind in kinds]
    function.restype = integers[f'u{max(8, result)}'] if result else None
    for line in sys.stdin:
        arguments, place, memory = json.loads(line)
        memory = bytes.fromhex(memory)
        held = ctypes.create_string_buffer(len(memory) + 2 * MARGIN + 64)
        begin = MARGIN + -(ctypes.addressof(held) + MARGIN) % 64
        guard = bytes([MARK]) * begin, bytes([MARK]) * (len(held) - begin - len(memory))
        held.raw = guard[0] + memory + guard[1]
        given = [ctypes.addressof(held) + begin + n if kind == 'ptr' else n for kind, n in zip(kinds, arguments)]
        found = function(*given)
        left = bytearray(held.raw)
        if left[:begin] != guard[0] or left[begin + len(memory):] != guard[1]:
            print('-', flush=True)
            continue
        left = left[begin:begin + len(memory)]
        if result:
            found = found & 1 if result == 1 else found
            left[place:place + max(1, result // 8)] = found.to_bytes(max(1, result // 8), 'little')
        print(left.hex(), flush=True)


if __name__ == '__main__':
    call_all()
