# include/lnbd.h declares what crates/lnbd_c exports, with the same parameters, and nothing else; it is C99 and C++, without a warning; and a program that
# calls each function once is linked to the library where that is built, whose other names are all hidden.
. checks/need.sh
need python3 python3
need gcc gcc
need g++ g++

dir=$(mktemp -d)
trap 'rm -rf "$dir"' EXIT

python3 - "$dir/calls.c" <<'PY'
import glob, re, sys

# What stands in C for a parameter's type; a pointer that is lent may be const or not.
C = {
    '&mut HandleSlot': ['lnbd_handle *'], '&mut BufferSlot': ['lnbd_buffer *'], '&[u8]': ['const uint8_t *', 'size_t'], '&mut *const u8': ['uint8_t **'],
    'bool': ['bool'], 'u32': ['uint32_t'], 'u64': ['uint64_t'], 'usize': ['size_t'], '&mut u32': ['uint32_t *'], '&mut u64': ['uint64_t *'], '&mut usize': ['size_t *'],
}

def told(name, wrong):
    print(f'ok: {name}' if not wrong else f'failed: {name}: ' + '; '.join(wrong[:8]))

exports = {}
for file in glob.glob('crates/lnbd_c/src/*.rt'):
    text = open(file, encoding='utf-8').read()
    for name, given, gives in re.findall(r'#\[unsafe\(no_mangle\)\]\s+pub extern "C" fn (\w+)\(([^)]*)\)( -> i32)?', text):
        types = [it.split(':', 1)[1].strip() for it in given.split(',') if ':' in it]
        exports[name] = ('lnbd_code' if gives else 'void', [c for it in types if it != 'Global' for c in C[it]])

header = open('include/lnbd.h', encoding='utf-8').read()
plain = re.sub(r'/\*.*?\*/', '', header, flags=re.S)
declared = {}
for gives, name, given in re.findall(r'^(lnbd_code|void)\s+(lnbd_\w+)\(([^)]*)\);', plain, re.M):
    types = [re.sub(r'\s*\w+$', '', it.strip()) if not it.strip().endswith('*') else it.strip() for it in given.split(',')]
    types = [' '.join(it.replace('*', ' * ').split()).replace('* *', '**') for it in types]
    declared[name] = (gives, ['uint8_t **' if it == 'const uint8_t **' else it for it in types])

wrong = [f'{name} is not exported' for name in declared if name not in exports] + [f'{name} is not declared' for name in exports if name not in declared]
told(f'each of the {len(exports)} exports is declared in the header, and nothing else is', wrong)
told('with the same parameters', [f'{name}: {declared[name]} for {exports[name]}' for name in exports if name in declared and declared[name] != exports[name]])

ends = max(map(len, header.split('\n')))
told('no line of the header is above 200 characters', [f'one has {ends}'] if ends > 200 else [])

def argument(kind, at):
    if kind in ('lnbd_handle *', 'lnbd_buffer *'):
        return '&h' if 'handle' in kind else '&b'
    return f'({kind})(space + {2 * at})' if kind.endswith('*') else '0'

# (by their names in order: some find no handle and no buffer, and those behind lnbd_create and lnbd_buffer_create find one)
with open(sys.argv[1], 'w') as file:
    file.write('#include <lnbd.h>\nstatic uint64_t space[32];\nint main(void) {\n    lnbd_handle h = LNBD_HANDLE_INIT;\n    lnbd_buffer b = LNBD_BUFFER_INIT;\n')
    for name, (gives, types) in sorted(declared.items()):
        lent = 'const uint8_t **'
        words = ', '.join(argument(it if it != 'uint8_t **' or re.search(rf'{name}\([^;]*[(,]\s*uint8_t \*\*', plain) else lent, at) for at, it in enumerate(types))
        file.write(f'    {name}({words});\n')
    file.write('    lnbd_buffer_close(&b);\n    lnbd_close(&h);\n    return 0;\n}\n')
PY

# ok NAME COMMAND ..: where the command ends well and says nothing.
ok() {
  local name=$1
  shift
  if "$@" >"$dir/said" 2>&1 && [ ! -s "$dir/said" ]; then echo "ok: $name"; else echo "failed: $name: $(head -c 600 "$dir/said")"; fi
}
strict='-pedantic -Wall -Wextra -Wconversion -Wstrict-prototypes -Werror -Iinclude'
ok 'the header is C99' gcc -std=c99 $strict -fsyntax-only -x c include/lnbd.h
ok 'and C11' gcc -std=c11 $strict -fsyntax-only -x c include/lnbd.h
ok 'and C++' g++ -std=c++11 -pedantic -Wall -Wextra -Werror -fsyntax-only -x c++ include/lnbd.h
ok 'a program that calls each function is C99' gcc -std=c99 -Iinclude -Wall -c "$dir/calls.c" -o "$dir/calls.o"

if ! tools/library ${PROVE:+--prove} "$dir/lib" >/dev/null 2>&1; then
  echo 'skipped: the library for C is not built of these sources'
  exit 0
fi
for kind in a so.0; do
  ok "it is linked to liblnbd.$kind" gcc "$dir/calls.o" "$dir/lib/liblnbd.$kind" -o "$dir/calls"
  [ "$kind" = a ] && ok 'and runs' "$dir/calls"
done
nm -D --defined-only "$dir/lib/liblnbd.so.0" | awk '$2 == "T" { sub(/@.*/, "", $3); print $3 }' | LC_ALL=C sort >"$dir/shown"
sed -nE 's/^(lnbd_code|void) (lnbd_[a-z_]+)\(.*/\2/p' include/lnbd.h | LC_ALL=C sort >"$dir/wanted"
ok 'the shared library shows the functions of the header, and no others' diff "$dir/shown" "$dir/wanted"
nm -D --undefined-only "$dir/lib/liblnbd.so.0" | awk '$1 == "U" { sub(/@.*/, "", $2); print $2 }' | grep -vxE 'malloc|realloc|free|memcpy|memmove|memset|memcmp|bcmp' >"$dir/others"
ok 'it calls malloc, realloc, free and mem*() alone' test ! -s "$dir/others"
ok 'its SONAME is liblnbd.so.0' sh -c 'readelf -d "$1" | grep -q "SONAME.*\[liblnbd.so.0\]"' sh "$dir/lib/liblnbd.so.0"
