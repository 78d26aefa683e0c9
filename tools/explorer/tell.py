"""What the server of `tools/explore` has told by a process of its own, so that limits hold for it; each answer goes to standard output.

usage: tell.py picture KERNEL PROGRAM TERMS LIFT ENTRIES   the plan as a graph, as JSON
       tell.py from-c FILE.c FUNCTION OPTION ..            the kernel of tools/from-c and the line of C of each of its stores, as JSON
       tell.py plain-c KERNEL                              the kernel as C without vectors
       tell.py noalias KERNEL                              the kernel with every pointer noalias
       tell.py rows BINARY INSTRUCTIONS KERNEL OPTION ..   what tools/why says of each row, as JSON

ENTRIES are the entries that the program calls, LIFT what `lift` prints of them, TERMS what `terms` prints of the kernel.
"""
import contextlib, importlib.machinery, importlib.util, io, json, os, sys

sys.dont_write_bytecode = True
HERE = os.path.dirname(os.path.abspath(__file__))
sys.path[:0] = [HERE, os.path.dirname(HERE)]
sys.setrecursionlimit(20000)
import kernel_text


def read(path):
    with open(path, encoding='latin-1') as file:
        return file.read()


def picture(kernel, program, terms, lift, entries):
    import plan_graph, program_text, registers, vegen_c
    instances = registers.read_instances(read(lift), vegen_c.read_entries(entries))
    made = plan_graph.graph(kernel_text.read_kernel(read(kernel).encode('latin-1')), program_text.Text(read(program)), instances)
    return json.dumps(made.json(plan_graph.terms_of(read(terms))))


def script(name):
    """The module of a tool whose name has no ending."""
    loader = importlib.machinery.SourceFileLoader(name, os.path.join(os.path.dirname(HERE), name))
    module = importlib.util.module_from_spec(importlib.util.spec_from_loader(name, loader))
    loader.exec_module(module)
    return module


def lined(kind, lines):
    """A translation of IR that notes the line of C of each store of the kernel."""
    class Lined(kind):
        def store(self, address, value):
            first = self.graph.stores
            super().store(address, value)
            place = self.module.place(self.instruction.location) if self.instruction else None
            for number in range(first, self.graph.stores):
                lines[number] = place[1] if place else None
    return Lined


def from_c(file, function, *options):
    import kernel_from_ir
    lines, told = {}, io.StringIO()
    kernel_from_ir.Translation = lined(kernel_from_ir.Translation, lines)
    kernel_from_ir.LoopTranslation = lined(kernel_from_ir.LoopTranslation, lines)
    with contextlib.redirect_stdout(told):
        script('from-c').main([file, function, *options])
    return json.dumps({'text': told.getvalue(), 'lines': lines})


def plain_c(kernel):
    import c_source
    return c_source.plain_c(read(kernel).encode('latin-1'))


def noalias(kernel):
    made = kernel_text.read_kernel(read(kernel).encode('latin-1'))
    return made.with_noalias(made.pointers()).text()


def rows(binary, instructions, kernel, *options):
    import why_rows
    answer = why_rows.answer(binary, instructions, read(kernel).encode('latin-1'), options)
    stories = [{'place': story.row.text(), 'lines': story.lines, 'packed': story.packed, 'sentences': story.sentences}
               for story in answer.stories]
    return json.dumps({'rows': stories, 'units': answer.units, 'cost': answer.plan.cost, 'scalar': answer.plan.scalar,
                       'cheapest': answer.cost, 'ways': [script('why').WAYS[name] for name in answer.names]})


def main(words):
    sys.stdout.write({'picture': picture, 'from-c': from_c, 'plain-c': plain_c, 'noalias': noalias, 'rows': rows}[words[0]](*words[1:]))


if __name__ == '__main__':
    main(sys.argv[1:])
