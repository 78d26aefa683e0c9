"""The library for C (include/vegen.h) called from Python, so that a run starts no process of its own.

A shared library is made of the static one by gcc, with the calls of memory of examples/c/vegen_heap.c.
"""
import ctypes, os, subprocess

import words as head

OK, ROOM_TOO_SMALL, ALL_EXTENSIONS, MOST = 0, 20, 1023, 1 << 26


class Handle(ctypes.Structure):
    _fields_ = [('at', ctypes.c_void_p), ('full', ctypes.c_size_t)]


class Report(ctypes.Structure):
    _fields_ = [('count', ctypes.c_size_t), ('number', ctypes.c_uint32), ('line', ctypes.c_uint32), ('column', ctypes.c_uint32)]


def shared_library(archive, folder):
    """The path of a shared library in this folder, of a static one."""
    path = os.path.join(folder, 'libvegen.so')
    heap = os.path.join(head.ROOT, 'examples', 'c', 'vegen_heap.c')
    include = os.path.join(head.ROOT, 'include')
    subprocess.run(['gcc', '-O2', '-shared', '-fPIC', f'-I{include}', '-o', path, heap,
                    '-Wl,--whole-archive', archive, '-Wl,--no-whole-archive'], check=True)
    return path


class Library:
    """A library of instructions that is kept, and the calls on texts with it."""

    def __init__(self, path):
        self.calls = ctypes.CDLL(path)
        self.handle, self.room = Handle(None, 0), ctypes.create_string_buffer(1 << 16)

    def read(self, text, extensions=ALL_EXTENSIONS):
        """Reads an instruction file; the status."""
        report = Report()
        return self.calls.vegen_library_read(text, ctypes.c_size_t(len(text)), ctypes.c_uint32(extensions),
                                             ctypes.byref(self.handle), ctypes.byref(report))

    def answered(self, call, *words):
        """The status and the text of a call, with more room where the answer needs it."""
        report = Report()
        status = call(*words, self.room, ctypes.c_size_t(len(self.room)), ctypes.byref(report))
        if status == ROOM_TOO_SMALL and report.count <= MOST:
            self.room = ctypes.create_string_buffer(2 * report.count)
            status = call(*words, self.room, ctypes.c_size_t(len(self.room)), ctypes.byref(report))
        return status, ctypes.string_at(self.room, report.count) if status in (OK, 13) else b''

    def check(self, kernel, program):
        return self.answered(self.calls.vegen_check, ctypes.byref(self.handle), *text(kernel), *text(program))

    def eval(self, kernel, memory, places, values):
        return self.answered(self.calls.vegen_eval, *text(kernel), *text(memory), *numbers(places), *numbers(values))

    def run(self, program, memory, places, values):
        return self.answered(self.calls.vegen_run, ctypes.byref(self.handle), *text(program), *text(memory),
                             *numbers(places), *numbers(values))

    def free(self):
        self.calls.vegen_library_free(ctypes.byref(self.handle))


def text(of):
    return of, ctypes.c_size_t(len(of))


def numbers(of):
    return (ctypes.c_uint64 * max(1, len(of)))(*of), ctypes.c_size_t(len(of))
