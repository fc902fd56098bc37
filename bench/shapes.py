#!/usr/bin/env python3
"""Large inputs without a fault, one shape each, for measuring how cost grows.

shapes.py SHAPE N > FILE
"""
import random
import sys

HEADER = 'package acme:platform@1.2.0;\n'
NOUNS = ('request response header body flow error choice field method path size count index buffer socket address '
         'status code token key value handle event timer config filter query outcome entry group').split()
PRIMITIVES = 'u8 u16 u32 u64 s32 s64 f32 f64 bool string char'.split()


def interface(name, lines):
    return 'interface %s {\n%s\n}\n' % (name, '\n'.join(lines))


def written(random_, names):
    """A type: a primitive, a name, or a list of one."""
    inner = random_.choice(names) if names and random_.random() < .5 else random_.choice(PRIMITIVES)
    return 'list<%s>' % inner if random_.random() < .25 else inner


def platform(n):
    """n interfaces as people write them: forty definitions each, and names of two earlier interfaces."""
    random_ = random.Random(7)
    out, earlier = [HEADER], []
    for number in range(n):
        lines, names = [], []
        for used in random_.sample(earlier, min(2, len(earlier))):
            name = random_.choice(used[1])
            local = 'used-%s%d' % (name, len(names))
            lines.append('  use %s.{%s as %s};' % (used[0], name, local))
            names.append(local)
        own = []
        for place in range(40):
            name = '%s-n%d' % (random_.choice(NOUNS), place)
            if place % 4 == 3:
                fields = ', '.join('%s: %s' % (field, written(random_, names + own)) for field in random_.sample(NOUNS, 5))
                lines.append('  record %s { %s }' % (name, fields))
            else:
                lines.append('  type %s = %s;' % (name, written(random_, names + own)))
            own.append(name)
        out.append(interface('part-n%d' % number, lines))
        earlier = (earlier + [('part-n%d' % number, own)])[-32:]
    return ''.join(out)


def chain(n):
    """n definitions, each another word for the one before it."""
    return HEADER + interface('i', ['type t0 = u8;'] + ['type t%d = t%d;' % (k, k - 1) for k in range(1, n)])


def turned_chain(n):
    """The same, each written before the one that it needs."""
    return HEADER + interface('i', ['type t%d = t%d;' % (k, k - 1) for k in range(n - 1, 0, -1)] + ['type t0 = u8;'])


def interfaces(n):
    """n interfaces, each with a name of the one before it."""
    return HEADER + 'interface i0 { type t = u8; }\n' + ''.join('interface i%d { use i%d.{t}; }\n' % (k, k - 1) for k in range(1, n))


def apart(n):
    """n interfaces that have nothing to do with one another."""
    return HEADER + ''.join('interface i%d { type t = u8; }\n' % k for k in range(n))


def shared(n):
    """n interfaces with a name of one."""
    return HEADER + 'interface z { type t = u8; }\n' + ''.join('interface i%d { use z.{t}; }\n' % k for k in range(n))


def uses(n):
    """One interface that uses a name of each of n others."""
    others = ''.join('interface i%d { type t = u8; }\n' % k for k in range(n))
    return HEADER + others + interface('z', ['use i%d.{t as t%d};' % (k, k) for k in range(n)])


def one_use(n):
    """One use of n names."""
    names = ', '.join('t%d' % k for k in range(n))
    return HEADER + interface('i', ['type t%d = u8;' % k for k in range(n)]) + interface('j', ['use i.{%s};' % names])


def lists(n):
    """n distinct unnamed types in one interface."""
    return HEADER + interface('i', ['type t%d = u8;\nrecord r%d { f: list<t%d> }' % (k, k, k) for k in range(n)])


def same_list(n):
    """One unnamed type, written n times."""
    return HEADER + interface('i', ['type t%d = u8;\nrecord r%d { f: list<u8> }' % (k, k) for k in range(n)])


def fields(n):
    """A record of n fields."""
    return HEADER + interface('i', ['record r {'] + ['part%d: u8,' % k for k in range(n)] + ['}'])


def nested(n):
    """n definitions of lists ninety deep."""
    return HEADER + interface('i', ['type t%d = %su8%s;' % (k, 'list<' * 90, '>' * 90) for k in range(n)])


def comment(n):
    """A comment of n lines."""
    return HEADER + '/*\n' + 'a line of a comment, as long as such lines are\n' * n + '*/\ninterface i {}\n'


def worlds(n):
    """n worlds, each with a definition, and an include of the one before it."""
    return HEADER + 'world w0 { type t = u8; }\n' + ''.join('world w%d { type t = u8; include w%d with { a as b } }\n' % (k, k - 1) for k in range(1, n))


def sides(n):
    """n worlds, each with an interface and a function imported, one exported, and one interface written in it."""
    declared = 'interface types { type t = u8; }\n'
    world = 'world w%d {\n  import types;\n  import log: func(a: string) -> u8;\n  export other: types;\n  export inside: interface { use types.{t}; f: func(a: t); }\n  export run: func();\n}\n'
    return HEADER + declared + ''.join(world % k for k in range(n))


def imports(n):
    """A world that imports n interfaces, and exports half of them."""
    declared = ''.join('interface i%d { type t = u8; f: func(a: t); }\n' % k for k in range(n))
    return HEADER + declared + 'world w {\n' + ''.join('  import i%d;\n' % k for k in range(n)) + ''.join('  export i%d;\n' % k for k in range(0, n, 2)) + '}\n'


def packages(n):
    """n packages in one file, each with a name of the one before it."""
    first = 'package a:p0 { interface i { type t = u8; } }\n'
    return HEADER + first + ''.join('package a:p%d { interface i { use a:p%d/i.{t}; } }\n' % (k, k - 1) for k in range(1, n))


def versions(n):
    """n packages of one name in one file, each in a version of its own."""
    return HEADER + ''.join('package a:p@1.0.%d { interface i { type t = u8; } }\n' % k for k in range(n))


def files(n):
    """n files, each with two names of its own for one interface, and an interface that uses a name by each."""
    first = '=== f0.wit\n' + HEADER + 'interface i0 { type t = u8; }\n'
    file = '=== f%d.wit\nuse i0 as m;\nuse i0 as n;\ninterface i%d { use m.{t}; use n.{t as u}; }\n'
    return first + ''.join(file % (k, k) for k in range(1, n))


def top_names(n):
    """n files, each with ten names of its own for one interface, and nothing else."""
    first = '=== f0.wit\n' + HEADER + 'interface i { type t = u8; }\n'
    names = ''.join('use i as n%d;\n' % k for k in range(10))
    return first + ''.join('=== f%d.wit\n%s' % (k, names) for k in range(1, n))


def aliases(n):
    """n interfaces, each under another name of the file, by which a world uses it."""
    declared = ''.join('interface i%d { type t = u8; }\nuse i%d as j%d;\n' % (k, k, k) for k in range(n))
    return HEADER + declared + 'world w {\n' + ''.join('  use j%d.{t as t%d};\n' % (k, k) for k in range(n)) + '}\n'


def foreign(n):
    """n interfaces of other packages, a name of each."""
    return HEADER + interface('z', ['use wasi:part%d/types@0.2.%d.{t as t%d};' % (k // 10, k % 10, k) for k in range(n)])


def foreign_uses(n):
    """n interfaces that use one name of an interface of another package."""
    return HEADER + ''.join('interface i%d { use wasi:io/streams@0.2.0.{input}; }\n' % k for k in range(n))


def foreign_names(n):
    """n names of one interface of another package."""
    return HEADER + interface('z', ['use wasi:io/streams@0.2.0.{%s};' % ', '.join('t%d' % k for k in range(n))])


def functions(n):
    """n functions of an interface, each of two parameters and a result, over one definition."""
    return HEADER + interface('i', ['type t = list<u8>;'] + ['g%d: func(a: t, b: option<u32>) -> result<t, string>;' % k for k in range(n)])


def resources(n):
    """n resources, each with a constructor, a method and a static function."""
    return HEADER + interface('i', ['resource r%d { constructor(a: u8); m: func(b: borrow<r%d>) -> u8; s: static func() -> r%d; }' % (k, k, k) for k in range(n)])


def world_resources(n):
    """A world with n resources, each with a constructor, a method, a static function, and a setter after its getter."""
    parts = 'constructor(a: u8); m: func(b: borrow<r%d>) -> u8; s: static func() -> r%d; v: get() -> u8; v: set(a: u8);'
    return HEADER + 'world w {\n' + '\n'.join('resource r%d { ' % k + parts % (k, k) + ' }' for k in range(n)) + '\n}\n'


def handles(n):
    """n functions over handles of one resource."""
    return HEADER + interface('i', ['resource r;'] + ['g%d: func(a: borrow<r>, b: own<r>);' % k for k in range(n)])


def handle_ends(n):
    """A chain of n other words for a resource, each with a handle."""
    return HEADER + interface('i', ['resource r;', 'type t0 = r;'] + ['type t%d = t%d;\ng%d: func(a: borrow<t%d>);' % (k, k - 1, k, k) for k in range(1, n)])


def methods(n):
    """A resource with n methods."""
    return HEADER + interface('i', ['resource r {'] + ['m%d: func(a: u8) -> r;' % k for k in range(n)] + ['}'])


def accessors(n):
    """n getters and their setters, each setter after its getter."""
    return HEADER + interface('i', ['v%d: get() -> u8; v%d: set(a: u8);' % (k, k) for k in range(n)])


def early_setters(n):
    """n setters, and after them their getters."""
    return HEADER + interface('i', ['v%d: set(a: u8);' % k for k in range(n)] + ['v%d: get() -> u8;' % k for k in range(n)])


def parameters(n):
    """A function of n parameters."""
    return HEADER + interface('i', ['f: func(' + ', '.join('p%d: u8' % k for k in range(n)) + ');'])


def docs(n):
    """n functions of an interface, each with three lines of docs."""
    return HEADER + interface('i', ['/// What it does,\n///   in some words,\n/// and no more.\nm%d: func(a: u8);' % k for k in range(n)])


def long_docs(n):
    """Docs of n lines."""
    return HEADER + '/// a line of docs, as long as such lines are\n' * n + 'interface i {}\n'


def stable(n):
    """n definitions with attributes, every other one of a type of its own."""
    return HEADER + interface('i', ['@since(version = 1.0.0)\n@deprecated(version = 1.2.0)\ntype t%d = %s;' % (k, 'u8' if k % 2 else 'list<t%d>' % (k - 1) if k else 'u16') for k in range(n)])


SHAPES = [platform, chain, turned_chain, interfaces, apart, shared, uses, one_use, lists, same_list, fields, nested, worlds,
          sides, imports, packages, versions, files, top_names, aliases, foreign, foreign_uses, foreign_names, functions, methods, resources, world_resources, handles, handle_ends, accessors, early_setters,
          parameters, docs, long_docs, stable, comment]

if __name__ == '__main__':
    by_name = {shape.__name__.replace('_', '-'): shape for shape in SHAPES}
    if len(sys.argv) != 3 or sys.argv[1] not in by_name:
        sys.exit('usage: shapes.py SHAPE N\n' + '\n'.join('  %-13s %s' % (name, shape.__doc__.split('\n')[0]) for name, shape in by_name.items()))
    sys.stdout.write(by_name[sys.argv[1]](int(sys.argv[2])))
