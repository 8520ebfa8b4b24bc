"""Documents at each limit and at each choice that a reader of the definitions would wonder about, large ones, and the examples."""

import glob
import os

from making import TOP

EXAMPLES = os.path.join(os.path.dirname(os.path.abspath(__file__)), '..', '..', 'examples', '*.cd')


# ---- documents at limits and at choices --------------------------------------------------------------------------------

GENERATOR = """\
cd 1
region starts {R1} iota 0 2
region cols {R2} iota 0 1
region vals {R2} const 3
region x {R2} iota 1 1
region y {R} const 0
region total 1 const 0
region u {U} iota 0 1
region t {T} const 0
domain root retry 3 detects node
preserve starts copy
preserve cols copy
preserve vals copy
preserve x copy
preserve y copy
preserve total copy
preserve u copy
preserve t copy
group
for a in 0..{n}
domain part:a retry 2 detects lost,link
preserve starts[{k}*a..{k}*a+{k1}] refer
preserve cols refer
preserve vals refer
preserve x refer
preserve y[{k}*a..{k}*a+{k}] copy
group
for b in 0..{n}
domain rows:b retry 3 detects flip
preserve starts[{k}*a+16*b..{k}*a+16*b+17] refer
preserve cols refer
preserve vals refer
preserve x refer
preserve y[{k}*a+16*b..{k}*a+16*b+16] refer
spmv y[{k}*a+16*b..{k}*a+16*b+16] starts[{k}*a+16*b..{k}*a+16*b+17] cols vals x
end
end
end
end
end
end
group
for a in 0..{n}
domain strip:a retry 2 detects flip
preserve u[64*a..64*a+66] refer
preserve t[64*a..64*a+64] copy
stencil t[64*a..64*a+64] 1 2 1 u[64*a..64*a+66]
end
end
end
sum total y
end
faults
for a in 0..{n}
strike root/part:a/rows:0 1 1 flip y[{k}*a] 1
end
strike root 1 3 node total[0] 7
"""

PRODUCT = """\
cd 1
region starts 257 iota 0 2
region cols 512 iota 0 1
region vals 512 const 3
region x 512 iota 1 1
region y 256 const 0
domain root retry 3 detects node
preserve starts copy
preserve cols copy
preserve vals copy
preserve x copy
preserve y copy
group
for a in 0..4
domain part:a retry 2 detects lost,link
preserve starts[64*a..64*a+65] refer
preserve cols refer
preserve vals refer
preserve x refer
preserve y[64*a..64*a+64] copy
group
for b in 0..4
domain rows:b retry 3 detects flip
preserve starts[64*a+16*b..64*a+16*b+17] refer
preserve cols refer
preserve vals refer
preserve x refer
preserve y[64*a+16*b..64*a+16*b+16] refer
spmv y[64*a+16*b..64*a+16*b+16] starts[64*a+16*b..64*a+16*b+17] cols vals x
end
end
end
end
end
end
end
faults
strike root/part0/rows0 1 1 flip y[0] 1
strike root/part0/rows0 2 1 flip y[1] 2
strike root/part0/rows1 1 0 flip x[0] 4
strike root/part1/rows2 1 1 link y[96] 8
strike root/part1 2 0 lost vals[5] 16
strike root/part2 1 1 link y[128] 32
strike root/part3/rows3 1 0 node cols[511] 64
strike root/part0/rows0 4 1 flip y[2] 128
strike root 2 1 node y[255] 1
strike root/part2/rows1 9 1 flip y[150] 1
strike root/part3 3 0 lost x[7] 0
strike root/part1/rows2 4 1 flip y[100] 255
"""


def generated(n):
    r, k = 16 * n * n, 16 * n
    return GENERATOR.format(R1=r + 1, R2=2 * r, R=r, U=64 * n + 2, T=64 * n, n=n, k=k, k1=k + 1)


def one(regions='', preserves='', body='', faults='', head='cd 1', root='domain root retry 2 detects flip'):
    whole = head + '\n' + regions + root + '\n' + preserves + body + 'end\n'
    return whole + ('faults\n' + faults if faults else '')


def limits():
    """Pairs of a name and a document, at a limit and just above it."""
    y = 'region y 4 const 0\n'
    py = 'preserve y copy\n'
    out = {}
    for k in (64, 65):
        out[f'regions_{k}'] = one(''.join(f'region r{i} 1 const {i}\n' for i in range(k)))
        out[f'regions_for_{k}'] = one(f'for i in 0..{k}\nregion r:i 1 const i\nend\n')
        out[f'entries_{k}'] = one(y, f'for i in 0..{k}\npreserve y[i-i] copy\nend\n')
    for k in (15, 16, 17):
        out[f'depth_{k}'] = 'cd 1\n' + ''.join(f'domain d{i} retry 1 detects flip\n' for i in range(k)) + 'end\n' * k
        out[f'depth_group_{k}'] = 'cd 1\ndomain d retry 1 detects flip\n' + 'group\ndomain d retry 1 detects flip\n' * (k - 1) + 'end\nend\n' * (k - 1) + 'end\n'
        out[f'nesting_{k}'] = one(y, py, ''.join(f'for v{i} in 0..1\n' for i in range(k)) + 'fill y 7\n' + 'end\n' * k)
        out[f'kinds_{k}'] = 'cd 2\n' + ''.join(f'kind k{i}\n' for i in range(k)) + 'domain root retry 1 detects k0\nend\n'
        out[f'kinds_taken_{k}'] = 'cd 2\n' + ''.join(f'kind k{i}\n' for i in range(k - 1)) + 'kind k0\ndomain root retry 1 detects k0\nend\n'
        out[f'kinds_long_{k}'] = 'cd 2\n' + ''.join(f'kind k{i}\n' for i in range(k - 1)) + f'kind {"k" * 33}\ndomain root retry 1 detects k0\nend\n'
    for k in (31, 32, 33):
        name = 'n' * k
        out[f'name_region_{k}'] = one(f'region {name} 1 const 0\n')
        out[f'name_region_sum_{k}'] = one(f'region {name[:-2]}:9+3 1 const 0\n')
        out[f'name_domain_{k}'] = one(body=f'domain {name} retry 1 detects flip\nend\n')
        out[f'name_domain_sum_{k}'] = one(body=f'for a in 9..11\ndomain {name[:-1]}:a retry 1 detects flip\nend\nend\n')
        out[f'name_root_{k}'] = one(root=f'domain {name} retry 1 detects flip')
        out[f'name_kind_{k}'] = f'cd 2\nkind {name}\ndomain root retry 1 detects {name}\nend\n'
        out[f'name_variable_{k}'] = one(y, py, f'for {name} in 0..4\nfill y[{name}] {name}\nend\n')
        out[f'name_path_{k}'] = one(y, py, faults=f'strike root/{name} 1 0 flip y[0] 1\n')
        out[f'name_place_{k}'] = one(y, py, faults=f'strike root 1 0 flip {name}[0] 1\n')
    for retry in (0, 1, 100, 101, 2 ** 32 + 1, TOP - 1, TOP):
        out[f'retry_{retry}'] = one(root=f'domain root retry {retry} detects flip')
        out[f'retry_inner_{retry}'] = one(body=f'domain a retry {retry} detects flip\nend\n')
    for k in (255, 256, 257):
        out[f'faults_{k}'] = one(y, py, faults=f'for i in 0..{k}\nstrike root i 0 flip y[0] 1\nend\n')
        out[f'members_{k}'] = one(body=f'group\nfor i in 0..{k}\ndomain a:i retry 1 detects flip\nend\nend\nend\n')
        out[f'members_taken_{k}'] = one(body=f'group\nfor i in 0..{k - 1}\ndomain a:i retry 1 detects flip\nend\nend\ndomain a0 retry 0 detects flip\nend\nend\n')
        out[f'members_retry_{k}'] = one(body=f'group\nfor i in 0..{k - 1}\ndomain a:i retry 1 detects flip\nend\nend\ndomain b retry 0 detects flip\nend\nend\n')
    for words in (1048575, 1048576, 2 ** 32, 2 ** 32 + 1, TOP - 2, TOP - 1):
        out[f'words_{words}'] = one(f'region x 1 const 1\nregion y {words} mix 1\n')
        out[f'words_alone_{words}'] = one(f'region y {words} mix 1\n')
    return out


def choices():
    y = 'region y 4 const 0\n'
    z = 'region z 4 const 0\n'
    py = 'preserve y copy\n'
    pz = 'preserve z copy\n'
    out = {}

    def add(name, document):
        out[name] = document

    def body(name, *lines):
        for k, line in enumerate(lines):
            add(f'{name}_{k}', one(y + z, py + pz, line + '\n'))

    def strikes(name, *lines):
        for k, line in enumerate(lines):
            add(f'{name}_{k}', one(y + z, py + pz, 'fill y 1\n', line + '\n'))

    def heads(name, *heads):
        for k, head in enumerate(heads):
            add(f'{name}_{k}', one(y, py, head=head))

    for name, document in [('empty', ''), ('feed', '\n'), ('comment', '#'), ('comments', '# a\n#b\n'), ('cd', 'cd 1'), ('cd_feed', 'cd 1\n'),
                           ('root_open', 'cd 1\ndomain root retry 1 detects flip'), ('root', 'cd 1\ndomain root retry 1 detects flip\nend'),
                           ('two_roots', 'cd 1\ndomain r retry 1 detects flip\nend\ndomain s retry 1 detects flip\nend\n'),
                           ('end_more', 'cd 1\ndomain root retry 1 detects flip\nend end\n'), ('end_first', 'end\ncd 1\n'),
                           ('end_late', 'cd 1\ndomain root retry 1 detects flip\nend\nend\n'), ('faults_twice', one() + 'faults\nfaults\n'),
                           ('faults_in', one(body='faults\n')), ('faults_more', one() + 'faults 1\n'), ('faults_more_struck', one(y, py) + 'faults x\nstrike root 1 0 flip y[0] 1\n'), ('strike_early', one(y, py, 'strike root 1 0 flip y[0] 1\n')),
                           ('strike_no_faults', one(y, py) + 'strike root 1 0 flip y[0] 1\n'), ('region_late', one() + y), ('region_in', one(body=y)),
                           ('preserve_late', one(y, py, 'fill y 1\n' + py)), ('preserve_group', one(y, py, 'group\n' + py + 'end\n')),
                           ('cd_twice', one(head='cd 1\ncd 1')), ('no_cd', one(head='')), ('for_cd', 'for a in 0..1\ncd 1\nend\n' + one(head='')),
                           ('for_cd_twice', 'for a in 0..2\ncd 1\nend\n' + one(head='')),
                           ('for_all', 'for a in 0..1\n' + one(y, py, 'fill y a\n', 'strike root 1 a flip y[a] 1\n') + 'end\n'),
                           ('for_root_none', 'cd 1\nfor a in 0..0\ndomain root retry 1 detects flip\nend\nend\n'),
                           ('for_root_none_long', 'cd 1\nfor a in 0..0\ndomain root retry 1 detects flip\nend\nend\n\n\n#\n'),
                           ('for_root_twice', 'cd 1\nfor a in 0..2\ndomain root retry 1 detects flip\nend\nend\n'),
                           ('for_faults', one() + 'for a in 0..1\nfaults\nend\n'), ('for_faults_twice', one() + 'for a in 0..2\nfaults\nend\n'),
                           ('for_kinds', 'cd 2\nfor a in 0..3\nkind k\nend\n'), ('for_kinds_name', 'cd 2\nfor a in 0..3\nkind k:a\nend\n'),
                           ('blocks_cross', 'cd 1\nfor a in 0..1\ndomain root retry 1 detects flip\nend\n'),
                           ('block_in_skipped', one(body='for a in 0..0\ngroup\nend\ndomain\nend\nfor\nend\nend\n')),
                           ('block_in_skipped_open', one(body='for a in 0..0\ngroup\nend\n')),
                           ('later_open_earlier_wrong', 'cd 7\ndomain root\n'), ('later_end_earlier_wrong', 'cd 7\nend\n')]:
        add('form_' + name, document)
    heads('version', 'cd 01', 'cd 0+1', 'cd 2', 'cd 02', 'cd 3', 'cd', 'cd 1 1', 'CD 1', 'cd 1#', 'cd 1 # x', '# x\ncd 1', 'cd 1-0', 'cd\t1\r', 'cd\x0b1')
    heads('kind', 'cd 1\nkind a', 'cd 2\nkind none', 'cd 2\nkind none halt', 'cd 2\nkind halt\nkind flip', 'cd 2\nkind halt halt\nkind flip', 'cd 2\nkind flip',
          'cd 2\nkind flip flip', 'cd 2\nkind flip halt', 'cd 2\nkind flip halt halt', 'cd 2\nkind', 'cd 2\nkind Flip', 'cd 2\nkind flip:1',
          'cd 2\nkind flip\nkind flip', 'cd 2\nkind flip\nkind flip halt', 'cd 2\nregion q 1 const 0\nkind flip', 'kind flip\ncd 2', 'cd 2\nfor a in 0..1\nkind flip\nend')
    # Which line, and which of several refusals of a statement.
    body('group', 'group\nend', 'group\nfor a in 0..0\ndomain x retry 1 detects flip\nend\nend\nend', 'group\nfill y 1\nend', 'group\ngroup\nend\nend',
         'group\ndomain x retry 1 detects flip\nend\nend', 'group\ndomain x retry 1 detects flip\nend\ndomain x retry 1 detects flip\nend\nend',
         'domain x retry 1 detects flip\nend\ndomain x retry 1 detects flip\nend', 'group x\nend', 'group 1\nend',
         'domain x0 retry 1 detects flip\nend\ndomain x:0 retry 1 detects flip\nend', 'domain x retry 1 detects flip\ndomain x retry 1 detects flip\nend\nend')
    body('for', 'for a in 0..a\nend', 'for a in 0..1\nfor a in 0..a\nend\nend', 'for a in 0..2\nfor a in 0..1\nend\nend', 'for a in 0..1\nend\nfill y a',
         'for a in 0..1 \nend', 'for a in 0..\nend', 'for a in ..1\nend', 'for a in 0\nend', 'for a in 0..1..2\nend', 'for a in 0...2\nend', 'for a of 0..1\nend',
         'for A in 0..1\nend', 'for a:1 in 0..1\nend', 'for a in 1-2..0\nend', f'for a in 0..{TOP}\nend', f'for a in {TOP - 1}..{TOP - 1}\nend',
         f'for a in {TOP - 2}..{TOP - 1}\nfill y a\nend', 'for in in 0..1\nfill y in\nend', 'for a in 0..1 x\nend', 'for a in 3..1\nnonsense\nend',
         'for a in 0..2\nfill y a-1\nend', 'for a in 0..2\nfill y 1-a\nend', 'for a in 0..3\nfill y 1-a\nend', 'for a in 1..4\nfill y[a-1..a] a*a\nend',
         'for a in 0..5\nfill y[a] a\nend', f'for {"v" * 33} in 0..1\nfill y {"v" * 33}\nend', f'for {"v" * 200} in 0..1\nfill y {"v" * 200}\nend',
         'for a in 0..2\nfor b in a..a+2\nfill y[a+b] 1\nend\nend', 'for a in 0..b\nend', 'for a in b..1\nend', 'for\nend', 'for a\nend', 'for a in\nend')
    body('digits', f'fill y {TOP - 1}', f'fill y {TOP}', f'fill y 0*{TOP}', 'fill y 1-2+5', f'fill y 0*{2 ** 32}*{2 ** 32}+1', f'fill y {2 ** 32}*{2 ** 32}*0',
         f'fill y {TOP - 1}+0', f'fill y {TOP - 1}+1-1', f'fill y {TOP - 1}*2-1', 'fill y 5-2*2', 'fill y 5-2*3', 'fill y 00007', f'fill y {"0" * 100}1',
         f'fill y {"0" * 100}{TOP}', 'fill y 1+', 'fill y +1', 'fill y -1', 'fill y 1++1', 'fill y 1*', 'fill y *1', 'fill y 1*+1', 'fill y 1a', 'fill y a1',
         'fill y a', 'fill y 0x1', 'fill y 1 + 1', 'fill y (1)', 'fill y 1+a', 'fill y 1-2+a', 'fill y', 'fill y 1 1', 'fill', 'FILL y 1', 'fil y 7', 'fill y 1,2')
    body('ranges', 'fill y[0..4] 1', 'fill y[0..5] 1', 'fill y[4..4] 1', 'fill y[3..2] 1', 'fill y[4] 1', 'fill y[3] 1', 'fill y[] 1', 'fill y[0 1', 'fill y0] 1',
         'fill y[0]] 1', 'fill y[[0] 1', 'fill y[0][1] 1', 'fill y[0]x 1', 'fill y[..] 1', 'fill y[0..] 1', 'fill y[..4] 1', 'fill y[0..2..4] 1', 'fill y[0...4] 1',
         'fill y[1-2] 1', f'fill y[{TOP - 1}] 1', f'fill y[{TOP}] 1', f'fill y[0..{TOP - 1}] 1', f'fill y[{2 ** 32}] 1', f'fill y[{2 ** 32}..{2 ** 32 + 1}] 1',
         f'fill y[0..{2 ** 32 + 4}] 1', 'fill q 1', 'fill q[9..1] 1', 'fill q 1-2', 'fill q a', 'fill y[9] 1-2', 'fill q[1-2] 1', 'fill y: 1', 'fill y:1 1',
         'fill :y 1', 'fill Y 1', 'fill y[a] 1', 'fill [0] 1', 'fill y[0.1] 1', 'fill y[0:1] 1', f'fill y:{TOP} 1', f'fill y:{TOP - 1} 1', 'fill y:1:2 1', 'fill y[01 1', 'fill y[0x 1', 'fill y[0..4x 1', 'fill y[0..41 1', 'fill y[0..4[ 1', 'fill y[0) 1', 'fill y] 1', 'fill y[0]] 1', 'copy y z[0..4x')
    body('shapes', 'copy y z', 'copy y y', 'copy y[0..2] y[2..4]', 'copy y[0..2] y[1..3]', 'copy y[0..2] z', 'copy y z[0..2]', 'copy y[0] y', 'copy y q', 'copy q y',
         'copy y[5] z', 'copy y z[5]', 'copy y[0..2] y[5]', 'add y y z', 'add y z y', 'add y z z', 'add y y[0..2] z', 'add y[0..2] y[1..3] z[0..2]', 'sub y z',
         'mul y z z z', 'axpy y 2 z', 'axpy y 2 y', 'axpy y z 2', 'axpy y 1-2 q', f'axpy y {TOP} z', 'axpy y 2 z[0]', 'scan y z', 'scan y y', 'scan y[0..3] y[1..4]',
         'sum y z', 'sum y[0] z', 'sum y[0] y', 'sum y[0] y[1..4]', 'sum y[0] y[0]', 'max y[3] y[0..3]', 'max y[0..2] z', 'dot y[0] z z', 'dot y[0] y[1..3] z[0..2]',
         'dot y[0] y[0..3] z[0..3]', 'dot y[0] z[0..2] z[0..3]', 'dot y z z', 'stencil y[0..2] 1 2 3 z', 'stencil y[0] 1 2 3 z[0..3]', 'stencil y[0] 1 2 3 y[1..4]',
         'stencil y[0] 1 2 3 y[0..3]', 'stencil y 1 2 3 z', 'stencil y[0..2] 1 2 z', 'stencil y[0..2] 1 2 1-2 z', 'spmv y[0] z[0..2] z[0] z[1] z',
         'spmv y[0] z[0..2] z[0..2] z[1] z', 'spmv y[0] z[0] z[0] z[1] z', 'spmv y[0..3] z z z z', 'spmv y[0] y[1..3] y[1..3] y[2..4] y[1]',
         'spmv y[0] y[0..2] z z z', 'spmv y[0] z[0..2] z z y', 'spmv y[0] z[0..2] z z', 'spmv y[0..4] z z z z')
    body('items', 'preserve y copy', 'fill y 1\npreserve y copy', 'domain a retry 1 detects flip\nend\npreserve y copy', 'preserve y', 'preserve y copies',
         'preserve y copy copy', 'preserve y regen', 'preserve y regen const', 'preserve y regen const 1', 'preserve y regen iota 1', 'preserve y regen iota 1 2',
         'preserve y regen mix 1 2', f'preserve y regen mix {TOP}', 'preserve q copy', 'preserve y[4] copy', 'preserve y[1-2] copy', 'preserve q refer 1',
         'preserve q[1-2] regen const 1', 'preserve y[9] regen const 1-2', 'preserve', 'preserve y refer', 'cd 1', 'end end')
    body('domains', 'domain a retry 1 detects', 'domain a retry 1 detects none\nend', 'domain a retry 1 detects none,flip\nend', 'domain a retry 1 detects flip,flip\nend',
         'domain a retry 1 detects flip,\nend', 'domain a retry 1 detects ,flip\nend', 'domain a retry 1 detects node,link,lost,flip\nend',
         'domain a retry 1 detects seu\nend', 'domain a retries 1 detects flip\nend', 'domain a retry 1 detect flip\nend', 'domain A retry 1 detects flip\nend',
         'domain a:1 retry 1 detects flip\nend', 'domain a:b retry 1 detects flip\nend', 'domain a:1-2 retry 1 detects flip\nend',
         'domain a:1-2 retry 1 detects seu\nend', 'domain a retry 1-2 detects seu\nend', 'domain a retry 0-1 detects flip\nend', 'domain a retry 1 detects flip x\nend',
         'domain root retry 1 detects flip\nend', f'domain {"a" * 33} retry 0 detects flip\nend', 'domain a retry 1 detects flip\nend\ndomain a retry 0 detects flip\nend',
         f'domain {"a" * 33} retry 1 detects flip\nend\ndomain {"a" * 33} retry 1 detects flip\nend', 'domain a/b retry 1 detects flip\nend',
         'domain a:007 retry 1 detects flip\nend', f'domain a:{TOP} retry 1 detects flip\nend', f'domain a:{TOP - 1} retry 1 detects flip\nend')
    strikes('strikes', 'strike root 1 0 flip y[0] 1', 'strike root 1-2 1 nokind y[0] 1', 'strike root 1-2 1 flip y[0] 1', 'strike root 1-2 1 flip q[0] 1',
            'strike root 1 0 flip q[0] 1', 'strike root 1 0 flip q[9] 1-2', 'strike root 1 0 flip y[4] 1', 'strike root 1 0 flip y 1', 'strike root 1 0 flip y[0..1] 1',
            'strike root 1 0 flip y[] 1', 'strike root 1 0 flip y[0] a', 'strike root:1 1 0 flip y[0] 1', 'strike root/a:1-2 1 0 flip y[0] 1', 'strike root/a:b 1 0 flip y[0] 1',
            'strike /root 1 0 flip y[0] 1', 'strike root/ 1 0 flip y[0] 1', 'strike root//a 1 0 flip y[0] 1', 'strike / 1 0 flip y[0] 1', 'strike Root 1 0 flip y[0] 1',
            f'strike root/{"a" * 40} 1 0 flip y[0] 1', f'strike root/{"a" * 400}/{"b" * 400} 1 0 flip y[0] 1', 'strike other 1 0 flip y[0] 1', 'strike root/a 1 0 flip y[0] 1',
            'strike root 1 1 flip y[0] 1', 'strike root 1 2 flip y[0] 1', f'strike root 1 {TOP - 1} flip y[0] 1', f'strike root 1 {TOP} flip y[0] 1',
            f'strike root {TOP - 1} 0 flip y[0] {TOP - 1}', 'strike root 0 0 flip y[0] 0', f'strike root 1 {2 ** 32} flip y[0] 1', 'strike root 1 0 lost y[0] 1',
            'strike root 1 0 none y[0] 1', 'strike root 1 0 flip,lost y[0] 1', 'strike root 1 0 flip y[0]', 'strike root 1 0 flip y[0] 1 1', 'strike', 'faults', 'strike root 1 0 flip y[01 1', 'strike root 1 0 flip y[0x 1', 'strike root 1 0 flip y[0]] 1',
            f'strike root 1 0 flip y[{2 ** 32}] 1', f'strike root 1 0 flip y[{TOP}] 1', 'for a in 0..2\nstrike root:a 1 0 flip y[a] 1\nend',
            'strike root 1 0 flip y[0] 1\nfill y 1', 'strike root 1 0 flip y[0] 1\ndomain a retry 1 detects flip\nend', 'strike root 1 0 flip y[0] 1\nregion q 1 const 0',
            'strike other 1 9 lost z[0] 1\nstrike root 1 0 flip q[0] 1', 'strike root 1 9 flip y[0] 1\nstrike other 1 0 flip y[0] 1',
            'strike root 1 0 flip y[0] 1\nstrike root 1 0 flip y[0] 1', 'strike root 1 9 lost y[0] 1', 'strike other 1 9 lost y[0] 1')
    for k, line in enumerate(['region y 1 const 0', 'region y 0 const 0', 'region q 0 const 0', f'region {"q" * 33} 0 const 0', f'region {"q" * 33} 1 const 0',
                              f'region {"q" * 33} {TOP - 1} const 0', 'region q 1', 'region q', 'region q 1 const', 'region q 1 iota 1', 'region q 1 iota 1 2 3', 'region q 1 mix',
                              'region q 1 what 1', 'region q[1] 1 const 0', 'region q 1-2 const 0', 'region y 1-2 const 0', 'region y 1 const 1-2', f'region y 0 const {TOP}',
                              'region q a const 0', 'region q:3 1 const 0', 'region q:a 1 const 0', 'region q:1-2 1 const 0', 'region Q 1 const 0', 'region _ 1 const 0',
                              'region q: 1 const 0', 'region q:3 1 const 0\nregion q3 1 const 0', 'region q0 1 const 0\nregion q:00 1 const 0', f'region q:{"0" * 40}5 1 const 0',
                              f'region q {TOP} const 0', 'region q 2*3-5 mix 2+3*4', 'region none 1 const 0', 'region q \x0b1 const 0', 'region \xe9 1 const 0',
                              'region q 1 const 0 #', 'region q#1 1 const 0', '#region', 'region q 1 const 0\x00']):
        add(f'regions_{k}', one(y + line + '\n', py))
    # The checks behind the reading.
    member = 'domain {} retry 1 detects flip\npreserve {} {}\nfill {} 1\nend\n'
    add('check_overlap', one(y, py, 'group\n' + member.format('a', 'y', 'copy', 'y') + member.format('b', 'y', 'copy', 'y[2]') + 'end\n'))
    add('check_apart', one(y, py, 'group\n' + member.format('a', 'y', 'copy', 'y[1]') + member.format('b', 'y', 'copy', 'y[2]') + 'end\n'))
    add('check_split', one(y, py, 'group\n' + member.format('a', 'y[0..2]', 'copy', 'y[1]') + member.format('b', 'y[2..4]', 'copy', 'y[2]') + 'end\n'))
    add('check_deep_overlap', one(y, py, 'domain o retry 1 detects flip\n' + py + 'group\n' + member.format('a', 'y', 'copy', 'y') + member.format('b', 'y[3]', 'copy', 'y[3]') + 'end\nend\n'))
    add('check_overlap_over_cover', one(y, '', 'group\n' + member.format('a', 'y', 'copy', 'y') + member.format('b', 'y', 'copy', 'y[2]') + 'end\n'))
    add('check_uncovered', one(y + z, py, 'fill z 1\n'))
    add('check_uncovered_part', one(y, 'preserve y[1..4] copy\n', 'fill y 1\n'))
    add('check_uncovered_source', one(y + z, py, 'copy y z\n'))
    add('check_uncovered_member', one(y + z, py, member.format('a', 'z', 'copy', 'z')))
    add('check_uncovered_entry', one(y + z, py, 'domain a retry 1 detects flip\npreserve z copy\nend\n'))
    add('check_no_target_root', one(y, 'preserve y refer\n'))
    add('check_no_target', one(y + z, 'preserve y regen const 1\n', 'domain a retry 1 detects flip\npreserve y refer\nend\n'))
    add('check_no_target_part', one(y, 'preserve y[0..2] copy\npreserve y[2..4] copy\n', 'domain a retry 1 detects flip\npreserve y refer\nend\n'))
    add('check_target_far', one(y, py, 'domain o retry 1 detects flip\n' + 'preserve y refer\n' + 'domain a retry 1 detects flip\npreserve y refer\nend\nend\n'))
    add('check_target_over_regen', one(y, py, 'domain o retry 1 detects flip\n' + 'preserve y regen const 1\n' + 'domain a retry 1 detects flip\npreserve y refer\nend\nend\n'))
    add('check_stale', one(y, py, 'fill y[1] 1\ndomain a retry 1 detects flip\npreserve y refer\nend\n'))
    add('check_stale_before', one(y, py, 'domain a retry 1 detects flip\npreserve y refer\nend\nfill y[1] 1\n'))
    add('check_stale_deep', one(y, py, 'fill y[1] 1\ndomain o retry 1 detects flip\n' + 'preserve y refer\n' + 'domain a retry 1 detects flip\npreserve y refer\nend\nend\n'))
    add('check_stale_inner', one(y, py, 'domain o retry 1 detects flip\n' + 'preserve y refer\n' + 'fill y[2] 1\ndomain a retry 1 detects flip\npreserve y refer\nend\nend\n'))
    add('check_stale_sibling', one(y, py, 'domain o retry 1 detects flip\n' + py + 'fill y[2] 1\nend\ndomain a retry 1 detects flip\npreserve y refer\nend\n'))
    add('check_stale_same_group', one(y + z, py + pz, 'group\n' + member.format('a', 'y', 'refer', 'y') + member.format('b', 'z', 'refer', 'z') + 'end\n'))
    add('check_no_target_before_uncovered', one(y + z, 'preserve y refer\n', 'fill z 1\n'))
    add('product', PRODUCT)
    for n in (1, 2, 4):
        add(f'generated_{n}', generated(n))
    return out


def examples():
    out = {}
    for path in sorted(glob.glob(EXAMPLES)):
        with open(path, 'rb') as kept:
            out['example_' + os.path.basename(path)[:-len('.cd')]] = kept.read()
    return out


def two_limits():
    """Statements that pass two limits, or pass one and are wrong otherwise."""
    y = 'region y 4 const 0\n'
    py = 'preserve y copy\n'
    out = {}
    heads = {'good': 'domain b retry 1 detects flip', 'name': f'domain {"b" * 33} retry 1 detects flip', 'retry': 'domain b retry 0 detects flip',
             'taken': 'domain taken retry 0 detects flip', 'arithmetic': 'domain b retry 1-2 detects flip', 'form': 'domain b retry 1-2 detects seu',
             'name_retry': f'domain {"b" * 33} retry 101 detects flip'}
    full = ''.join(f'group\nfor a in 0..256\ndomain g{g}_:a retry 1 detects flip\nend\nend\nend\n' for g in range(7))
    full += 'group\nfor a in 0..253\ndomain last:a retry 1 detects flip\nend\nend\nend\n'
    deep = ''.join(f'domain d{k} retry 1 detects flip\n' for k in range(15))
    for name, head in heads.items():
        for before, group in [('', ''), ('group\n', 'end\n')]:
            kind = 'group' if before else 'plain'
            # 2,046 domains stand before: `taken` and this one, or another before it, make 2,048 or 2,049.
            for more in ('', 'domain more retry 1 detects flip\nend\n'):
                out[f'two_domains_{name}_{kind}_{len(more) > 0:d}'] = one(body=full + 'domain taken retry 1 detects flip\nend\n' + more + before + head + '\nend\n' + group)
            out[f'two_depth_{name}_{kind}'] = one(body=deep + before + head + '\nend\n' + group + 'end\n' * 15)
            out[f'two_depth_taken_{name}_{kind}'] = one(body=deep + 'group\ndomain taken retry 1 detects flip\nend\n' + head + '\nend\nend\n' + 'end\n' * 15)
        out[f'two_items_{name}'] = one(y, py, f'for a in 0..16383\nfill y a\nend\ndomain taken retry 1 detects flip\nend\n{head}\nend\n')
        out[f'two_items_group_{name}'] = one(y, py, f'for a in 0..16383\nfill y a\nend\ngroup\ndomain taken retry 1 detects flip\nend\n{head}\nend\nend\n')
        out[f'two_items_depth_{name}'] = one(y, py, f'for a in 0..16369\nfill y a\nend\n' + deep + head + '\nend\n' + 'end\n' * 15)
        out[f'two_members_{name}'] = one(body=f'group\nfor a in 0..255\ndomain m:a retry 1 detects flip\nend\nend\ndomain taken retry 1 detects flip\nend\n{head}\nend\nend\n')
    for name, line in [('shape', 'copy y y[0]'), ('outside', 'fill y[4] 1'), ('unknown', 'fill q 1'), ('good', 'fill y 1'), ('group', 'group'), ('form', 'fil y 1')]:
        out[f'two_items_op_{name}'] = one(y, py, f'for a in 0..16384\nfill y a\nend\n{line}\n' + ('end\n' if line == 'group' else ''))
    long = 'r' * 33
    for name, line in [('good', 'region q 1 const 0'), ('name', f'region {long} 1 const 0'), ('words', 'region q 1048576 const 0'), ('zero', 'region q 0 const 0'),
                       ('taken', 'region r0 0 const 0'), ('all', f'region {long} 1048577 const 0'), ('zero_name', f'region {long} 0 const 0')]:
        for k in (63, 64):
            out[f'two_regions_{name}_{k}'] = one(f'for i in 0..{k}\nregion r:i 1 const i\nend\n{line}\n')
    for name, line in [('good', 'preserve y copy'), ('outside', 'preserve y[4] copy'), ('unknown', 'preserve q copy'), ('form', 'preserve y'), ('sum', 'preserve y regen const 1-2')]:
        for k in (63, 64):
            out[f'two_entries_{name}_{k}'] = one(y, f'for i in 0..{k}\npreserve y copy\nend\n{line}\n')
    inner = 'group\nfor a in 0..255\ndomain d:a retry 1 detects flip\nfor b in 0..64\npreserve y[0] refer\nend\nend\nend\nend\n'
    full_entries = 'for b in 0..{}\npreserve y copy\nend\n'
    for k in (62, 63, 64):
        for last in (1, 2, 64, 65):
            out[f'two_preserves_{k}_{last}'] = one(y, full_entries.format(k), inner + f'domain e retry 1 detects flip\nfor b in 0..{last}\npreserve y[0] refer\nend\nend\n')
    for name, line in [('good', 'strike root 1 0 flip y[0] 1'), ('outside', 'strike root 1 0 flip y[4] 1'), ('unknown', 'strike root 1 0 flip q[0] 1'),
                       ('sum', 'strike root 1-2 0 flip q[0] 1'), ('form', 'strike root 1-2 0 seu q[0] 1')]:
        for k in (255, 256):
            out[f'two_faults_{name}_{k}'] = one(y, py, faults=f'for i in 0..{k}\nstrike root i 0 flip y[0] 1\nend\n{line}\n')
    for name, line in [('good', 'for z in 0..1'), ('taken', 'for v3 in 0..1'), ('sum', 'for v3 in 1-2..1'), ('form', 'for v3 in 1-2..u'), ('none', 'for z in 0..0')]:
        for k in (15, 16):
            out[f'two_nesting_{name}_{k}'] = one(y, py, ''.join(f'for v{i} in 0..1\n' for i in range(k)) + line + '\nfill y 7\nend\n' + 'end\n' * k)
    for name, line in [('good', 'kind q'), ('name', f'kind {"q" * 33}'), ('taken', 'kind k3'), ('none', 'kind none'), ('halt', 'kind q halt'), ('form', 'kind q stop')]:
        for k in (15, 16):
            out[f'two_kinds_{name}_{k}'] = 'cd 2\n' + ''.join(f'kind k{i}\n' for i in range(k)) + f'{line}\ndomain root retry 1 detects k0\nend\n'
    return out


def large():
    """Documents of many lines, domains, words or blocks, some of which take long."""
    y = 'region y 4 const 0\n'
    py = 'preserve y copy\n'
    out = {}
    for k in (65536, 65537, 70000):
        out[f'lines_turns_{k}'] = f'for a in 0..{k}\nend\n' + one()
        out[f'lines_alone_{k}'] = f'cd 1\nfor a in 0..{k}\nend\n'
    # cd, domain, end: the last statement is number 65,536 with 65,533 turns.
    for k in (65533, 65534):
        out[f'lines_before_{k}'] = f'for a in 0..{k}\nend\n' + one()
    for k in (65535, 65536):
        for name, head in [('form', 'for a in'), ('arithmetic', 'for a in 1-2..3'), ('turn', 'for b in 0..1'), ('none', 'for b in 0..0')]:
            out[f'lines_for_{name}_{k}'] = f'for a in 0..{k}\nend\n{head}\nend\n' + one()
    for k in (16384, 16385):
        out[f'items_{k}'] = one(y, py, f'for a in 0..{k}\nfill y a\nend\n')
    out['items_group_16385'] = one(y, py, 'for a in 0..16384\nfill y a\nend\ngroup\nnonsense\nend\n')
    out['items_domain_16385'] = one(y, py, 'for a in 0..16384\nfill y a\nend\ndomain a retry 0 detects flip\nnonsense\nend\n')
    for k in (255, 256):
        groups = ''.join(f'group\nfor a in 0..256\ndomain g{g}_:a retry 1 detects flip\nend\nend\nend\n' for g in range(7))
        out[f'domains_{k}'] = one(body=groups + f'group\nfor a in 0..{k}\ndomain last:a retry 1 detects flip\nend\nend\nend\n')
    for k in (64, 65):
        inner = f'group\nfor a in 0..256\ndomain d:a retry 1 detects flip\nfor b in 0..{k - 1}\npreserve y[0] refer\nend\nend\nend\nend\n'
        out[f'preserves_{k}'] = one(y, 'for b in 0..64\npreserve y[0..4] copy\nend\n', inner + f'domain e retry 1 detects flip\nfor b in 0..{255 - 63 if k == 64 else 1}\npreserve y[0] refer\nend\nend\n')
    out['preserves_16384'] = one(y, 'for b in 0..64\npreserve y copy\nend\n', 'group\nfor a in 0..255\ndomain d:a retry 1 detects flip\nfor b in 0..64\npreserve y[0] refer\nend\nend\nend\nend\n')
    out['preserves_16385'] = out['preserves_16384'][:-4] + 'domain e retry 1 detects flip\npreserve y[0] refer\nend\nend\n'
    words = 1048576
    for extra in (0, 1):
        nest = ''.join(f'domain d{k} retry 1 detects flip\npreserve y copy\n' for k in range(3)) + ('domain e retry 1 detects flip\npreserve y[0] copy\nend\n' if extra else '') + 'end\n' * 3
        out[f'need_{65536 + extra}'] = one(f'region y {words} const 0\n', py, nest)
        out[f'need_refused_late_{extra}'] = one(f'region y {words} const 0\n', py, nest, 'strike other 1 0 flip y[0] 1\n')
        # What is found behind, before and beside too large a need.
        out[f'need_uncovered_{extra}'] = one(f'region z 1 const 0\nregion y {words - 1} const 0\n', py, nest + 'fill z 1\n')
        out[f'need_stale_{extra}'] = one(f'region y {words} const 0\n', py, nest + 'fill y[0] 1\ndomain f retry 1 detects flip\npreserve y refer\nend\n')
        out[f'need_overlap_{extra}'] = one(f'region y {words} const 0\n', py, nest + 'group\ndomain f retry 1 detects flip\n' + py + 'fill y 1\nend\ndomain g retry 1 detects flip\n' + py + 'end\nend\n')
    # Texts of many lines, words, blocks and loops.
    out['text_words'] = 'x ' * 524288
    out['text_word_lines'] = 'x\n' * 524288
    out['text_feeds'] = '\n' * 1048576
    out['text_blanks_fed'] = one(y, py) + ' \n' * 500000
    out['text_comments'] = '#end\n' * 200000 + one(y, py)
    out['text_loops'] = one(y, py, 'for a in 0..0\nend\n' * 50000)
    out['text_loops_deep'] = one(y, py, 'for a in 0..0\n' * 50000 + 'end\n' * 50000)
    out['text_loops_open'] = one(y, py, 'for a in 0..0\n' * 50000 + 'end\n' * 49999)
    out['text_loops_deep_turns'] = one(y, py, 'for a in 0..1\n' * 50000 + 'end\n' * 50000)
    out['text_groups_deep'] = one(y, py, 'group\n' * 90000 + 'end\n' * 90000)
    out['text_domains_deep'] = one(y, py, 'domain a retry 1 detects flip\n' * 20000 + 'end\n' * 20000)
    out['text_loops_looped'] = one(y, py, 'for b in 0..65000\n' + 'for a in 0..0\nend\n' * 20 + 'end\n')
    out['text_sum_looped'] = one(y, py, 'for a in 0..300\nfill y a' + '+1' * 5000 + '\nend\n')
    out['text_names'] = one(y, py, ''.join(f'fill y[{i % 4}] {i}\n' for i in range(16384)))
    out['text_path'] = one(y, py, faults='strike root' + '/a:1' * 100000 + ' 1 0 flip y[0] 1\n')
    out['text_kinds'] = one(y, py, 'domain a retry 1 detects ' + 'flip,' * 100000 + 'flip\nend\n')
    out.update(two_limits())
    out['text_full'] = one(y, py) + ' ' * (1048576 - len(one(y, py)))
    out['text_over'] = one(y, py) + ' ' * (1048577 - len(one(y, py)))
    out['text_over_wrong'] = 'x\n' * 600000
    out['text_digits'] = one(y, py, 'fill y ' + '0' * 100000 + '5\n')
    out['text_sum'] = one(y, py, 'fill y 0' + '+1' * 50000 + '\n')
    out['text_token'] = one(y, py, 'q' * 200000 + '\n')
    return out
