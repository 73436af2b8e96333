"""random_tables.py FOLDER COUNT SEED: writes random Compose files, among them many that a reader skips lines of or refuses.

Table N is FOLDER/N, its includes are FOLDER/N.a, FOLDER/N.b ..; of four kinds in turn: lines of one class each, free mixtures, changed bytes, includes. The
keys are drawn from a few hundred, so that thousands of tables fit on one key map. The same seed writes the same tables in the same folder."""
import os
import random
import sys

FIRST = ['F%d' % i for i in range(13, 25)]
PLAIN = ['a', 'b', 'c', 'x', 'A', 'apostrophe', 'space', 'eacute', '1', 'e', 'o', 'Multi_key', 'colon', 'less', 'greater', 'numbersign', 'quotedbl', 'backslash']
DEAD = ['dead_acute', 'dead_grave', 'dead_circumflex', 'dead_tilde', 'dead_macron', 'dead_hook', 'dead_horn', 'dead_belowdot', 'dead_stroke', 'dead_greek', 'dead_psili', 'dead_dasia', 'dead_lowline', 'dead_currency', 'dead_a', 'dead_ogonek', 'dead_iota', 'dead_abovedot', 'dead_doublegrave', 'dead_voiced_sound']
NAMES = ['quoteright', 'guillemotleft', 'guillemetleft', 'Eth', 'masculine', 'kana_fullstop', 'Ext16bit_L', 'ISO_First_Group_Lock', 'script_switch', 'Cyrillic_DZHE', 'Serbian_dje', 'leftcaret', 'radical', 'Ooblique', 'dead_perispomeni', 'topleftradical', 'SunFCopy', 'Eacute', 'AE', 'ae', 'Greek_ALPHA', 'Greek_alpha', 'Tab', 'Return', 'THORN', 'Thorn', 'Ohorn', 'ohorn', 'Abreve', 'abreve', 'EuroSign', 'Wcircumflex', 'braille_dots_1', 'braille_blank', 'Sinh_a', 'Arabic_peh', 'Cyrillic_ve', 'Hangul_A', 'kana_a', 'hebrew_aleph', 'combining_acute', 'KP_1', 'KP_Add', 'KP_Enter', 'KP_Home', 'KP_Space', 'EcuSign', 'ecircumflexacute', 'Escape', 'BackSpace', 'Delete', 'VoidSymbol', 'F35', 'ISO_Left_Tab', 'osfUp', 'hpmute_acute', 'DRemove', 'schwa', 'SCHWA', 'partialderivative', 'lcaron', 'Zacute', 'dagger', 'emdash', 'Armenian_AYB', 'Georgian_an', 'Touroku', 'Mode_switch', 'Shift_L', 'Caps_Lock', 'ISO_Level3_Shift', 'ISO_Level5_Shift', 'ISO_Lock', 'Num_Lock', 'Super_L', 'Overlay1_Enable', 'Launch1']
XF = ['XF86Launch1', 'XF86Back', 'XF86AudioMute', 'XF86Calculator', 'XF86_Launch1', 'XF86Tab', 'XF86a', 'XF86XK_Launch1', 'XF86_a']
UFORMS = ['U00E9', 'U00e9', 'U0061', 'U000041', 'U0027', 'U2192', 'U01EB', 'U1F600', 'U03D2', 'U0338', 'U0101', 'U20AC', 'U0100', 'U03B1', 'U0416', 'U0105', 'U0142', 'U05D0', 'UE9', 'U226', 'U41', 'U61', 'U1e9', 'U00000061', 'U0000E9', 'U10FFFF', 'UFE50', 'UFE51', 'U0301', 'U1E00', 'UFFFF', 'U10000', 'U0020', 'UFF20', 'UFFCA']
UODD = ['U', 'U0', 'U0000', 'U1', 'U7F', 'U0080', 'U009f', 'UD800', 'U110000', 'UFFFFFFF', 'U000000061', 'U10000000000000061', 'u0061', 'U+0061', 'U00E9x', 'Uacute', 'U-61', 'Udiaeresis', 'U0FFFFFF', 'U100000061', 'U1000061']
HEXES = ['0x61', '0xff20', '0xfe51', '0x7e1', '0x0061', '0x1002192', '0x10081101', '0x100000c1', '0x1fffffff', '0x1005ff00', '0X61', '0x', '0x0', '0x000000041', '0x20000061', '0xffffffff', '0x100000061', '0xg', '61', '0x00000041', '0x1000061', '0x10000e9', '0xffffff']
BADNAMES = ['NoSymbol', 'nosuchname', 'Compose', 'multi_key', 'é', '', ' a', 'a ', 'a\t', '-', 'a-b', 'EACUTE', 'dead_foo', 'kp_1', 'a\0b', 'a' * 1022, 'a' * 1023, 'a' * 2000, 'a"b', 'a#b', '<a', 'a:b', '@', '10', 'a.b']
TEXTS = ['é', '→', 'x', 'Ω', '😀', '①', 'ab', 'e\u0301', 'hello world', '👩\u200d💻', 'é→', '<3', ' ', '  ', '#', 'a#b', ':', '<a>', 'a : "b', '>', "'", '\x01', '\x7f', '\x85', '\u202e', '\ufeff', '\ufffe', '\U0010ffff', 'a\tb', 'a\rb', '\t', '', 'á', 'à', 'ấ', '\u7fff', '\u8000', '\uffff', '\U00010000', 'ά', 'ᾶ']
RAWS = ['a\\nb', '\\n', 'x\\t', '\\r\\n', 'p\\tq', '\\101', '\\7', '\\60', '\\0601', '\\1018', '\\12a', '\\303\\251', '\\342\\206\\222', 'a\\303\\251b', '\\0418', '\\1', '\\x41', '\\X41', '\\xc3\\xa9', '\\x4', '\\x41z', 'a\\x41', '\\xe2\\x86\\x92', '\\x414', '\\x41a', '\\x2192', '\\xc3\\xa9e', '\\x23fe', '\\"', '\\\\', 'a\\"b', '\\\\n', '\\\\\\"', 'x\\\\', '\\400', '\\777', '\\0', '\\000', '\\x0', '\\x00', '\\x', '\\xg', '\\q', '\\8', '\\9', '\\', 'a\\', '\\u00e9', '\\e9', '\\x 41', '\\x-1', '\\x+41', '\\x0x41', '\\351', '\\xe9', 'é\\351', '\\xff', '\\xd800', '\\x110000', '\\xffffffff', '\\x7fffffff', '\\x80000000', '\\xffffffffffffffffff', '\\x1f600', '\\07', '\\7777777', '\\77777777777777777777777', '\\x8000', '\\x7fff', '\\"x', 'x\\"', '\\\\"', '\\101b', 'b\\101', '\\81', '"', '""', '\\x10ffff', 'a\\\\b', '\\ a', '\\x41\\x42', '\\101\\102', "\\'"]
RES = ['eacute', 'U00E9', 'x', '0xe9', 'dead_acute', 'XF86Launch1', 'Ohorn', '1', '3270_Quit', '9', 'U2192', 'Greek_alpha', 'U1F600', 'EuroSign', 'overline', 'leftanglebracket', 'KP_1', 'approximate', 'Hangul_A', 'KP_Add', 'Return', 'Delete', 'underbar', 'U0338', 'leftcaret', 'Tab', 'KP_Space', 'enfilledcircbullet', 'radical', 'F13', 'VoidSymbol', 'Multi_key', 'NoSymbol', 'nosuchname', 'UE9', 'UD800', 'U110000', 'a-b', 'BackSpace', 'Linefeed', 'KP_Equal', 'combining_acute', 'Shift_L', 'braille_dots_1', 'topleftradical', 'zerosuperior', 'include', 'None', 'Sinh_a', 'Arabic_0']
MODS = ['! ', '~Shift ', 'Ctrl ', 'None ', '!Shift ', '! Ctrl Shift ', 'Shift', 'Lock', '~Ctrl ~Alt ', 'Alt Meta ', 'Caps ', 'Foo ', '~', '~ ', '! ~Ctrl', 'None Shift ', '!!', 'Ctrl ~Ctrl ', 'Mod1 ', '? ', 'x ', 'include ']


class Gen:
    def __init__(self, rng, folder):
        self.r, self.d = rng, folder

    def c(self, xs):
        return self.r.choice(xs)

    def name(self):
        z = self.r.random()
        for p, xs in ((.42, PLAIN), (.55, NAMES), (.65, DEAD), (.70, XF), (.82, UFORMS), (.87, UODD), (.93, HEXES), (.96, BADNAMES)):
            if z < p:
                return self.c(xs)
        return self.c(PLAIN)

    def events(self, keys, plain=.8):
        r = self.r
        if r.random() < plain:
            return ' '.join('<%s>' % k for k in keys)
        return ''.join(self.c(['', ' ', '\t', '  ', '\r', ' x ', '\x0b', '\x0c', ',', ' "q" ', '# ', '>']) if r.random() < .3 else ' ' for _ in [0]).join('<%s>' % k for k in keys)

    def keys(self):
        r = self.r
        n = self.c([0, 1, 1, 1, 1, 2, 2, 3])
        if r.random() < .06:
            n = self.c([7, 8, 9, 10, 11, 18, 19, 20, 21, 31, 32])
        return ([self.c(FIRST)] if r.random() < .8 else [self.c(DEAD + ['Multi_key'])] if r.random() < .6 else []) + [self.name() if r.random() < .5 else self.c(PLAIN[:8]) for _ in range(n)]

    def result(self):
        r = self.r
        z = r.random()
        if z < .5:
            return '"%s"' % self.c(TEXTS)
        if z < .68:
            return '"%s"' % self.c(RAWS) if r.random() < .7 else '"%s%s%s"' % (self.c(RAWS + TEXTS), self.c(RAWS), self.c(RAWS + ['z', '1', 'é', '']))
        if z < .76:
            return '"%s"%s%s' % (self.c(TEXTS), self.c([' ', '', '\t']), self.c(RES))
        if z < .84:
            return self.c(RES)
        if z < .88:
            return '"%s"' % self.c(['y' * 254, 'y' * 255, 'é' * 127 + 'x', 'é' * 127, 'z' * self.r.randint(100, 256), 'y' * 256, 'w' * 1022, 'w' * 1023, 'w' * 3000, 'é' * 128, '→' * 85, 'x' * 127, 'x' * 128])
        return self.c(['"é', 'é"', '', '"a" "b"', '"x" a b', '"x" a "y"', 'a "x"', '"x" <b>', '"x" # c', '"x"#c', 'a#c', '"x" "', '""', '"" a', '"x"a : "y"', '"x" a <F13> <b> : "z"', '"x" a <F14> <c> : "w" b', "'x'", '\\x41', '"x" :', '"a\0b"', '"a\0', '"x" 1a', '"x";', ': "x"', '"x" -a', 'a -b', '"x" a!', '"x" a é'])

    def line(self):
        r = self.r
        keys = self.keys()
        ev = self.events(keys)
        if r.random() < .06:
            i = self.c(range(len(keys) + 1))
            ev = self.events(keys[:i]) + ' ' + self.c(MODS) + self.events(keys[i:])
        colon = self.c([' : ', ': ', ':', ' :', '\t:\t', ' :\r', '\r: ', ' ', '::', ' : : ', ' # : '] if r.random() < .15 else [' : ', ' : ', ': ', ':'])
        lead = self.c(['  ', '\t', '\r', '# ', '#', ' # ', '\x0b', '\xa0', '! ', ';', '\\', 'x'] if r.random() < .08 else [''])
        end = self.c([' ', '  ', '\t', '\r', ' # c', '#', ' # é☺', ' # c\r', ' # c\\', '\\', ' # : <a>', '\x0b', ' \0 # c', ' # a\0b', ' #' + 'c' * 3000, ' # "', ' # c\\\\'] if r.random() < .15 else ['', '', ' # c'])
        return lead + ev + colon + self.result() + end

    def lines(self):
        r = self.r
        z = r.random()
        if z < .72:
            return [self.line()]
        if z < .80:
            k = self.keys()[:3] or ['F13']
            a = [self.events(k, 1) + ' : ' + self.c(['"é"', '"x"', 'a', '"x" b', 'U2192', '""', '"ab"', self.result()]) for _ in range(self.c([2, 2, 3]))]
            return a
        if z < .88:
            k = [self.c(FIRST)] + [self.c(PLAIN[:8]) for _ in range(self.c([0, 1, 1, 2]))]
            a = [self.events(k, 1) + ' : "' + self.c('pqr') + '"', self.events(k + [self.c(PLAIN[:8]) for _ in range(self.c([1, 1, 2, 7, 8, 9, 18]))], 1) + ' : "' + self.c(['P', 'QQ', '😀']) + '"']
            if r.random() < .5:
                a.reverse()
            if r.random() < .3:
                a.append(a[0])
            return a
        if z < .93:
            return [self.c(['', '#', '# c', '   # <F13> <b> : "q"', '\t', '\r', ' ', '# c\\', '# <F13> <b> : "q"\\', '#\0', 'garbage', '<F13> <a>', ': "x"', '"x"', '<', '\\', '\ufeff', '\0', '# \u2603', 'include', 'XCOMM c', '<F13> <a> : "x" : <b> : "y"', 'é', '-'])]
        return [self.c(['<dead_acute>', '<dead_grave> <dead_acute>', '<Multi_key> <apostrophe>', '<dead_circumflex>', '<dead_hook> <dead_horn>', '<Multi_key>', '<dead_acute> <dead_acute>', '<dead_tilde>']) + ' <%s> : "%s"' % (self.c(['a', 'e', 'o', 'Greek_alpha', 'space', 'x', 'dead_acute', 'dead_grave', 'apostrophe']), self.c(['á', 'é', 'x', 'ά', 'ấ', 'à', 'QQ', 'ἄ']))]

    def body(self, n):
        out = []
        for _ in range(n):
            out += self.lines()
        return out

    def mutate(self, b):
        r = self.r
        b = bytearray(b)
        for _ in range(self.c([1, 1, 1, 2, 3, 5])):
            if not b:
                break
            i = r.randrange(len(b))
            z = r.random()
            if z < .3:
                b[i] = r.choice(b'<>:"\\# \n\r\tx\0' + bytes([r.randrange(256)]))
            elif z < .55:
                b[i:i] = bytes([r.choice(b'<>:"\\# \n\r\t!~U0\0%' + bytes([r.randrange(256)]))])
            elif z < .8:
                del b[i:i + r.choice([1, 1, 1, 2, 3])]
            else:
                j = r.randrange(len(b))
                b[i:i] = b[min(i, j):max(i, j)][:200]
        return bytes(b)

    def shape(self, text):
        """The whole file: marks, ends of lines, a last newline."""
        b = text.encode('utf-8', 'surrogatepass')
        z = self.r.random()
        if z < .06:
            b = b'\xef\xbb\xbf' + b
        elif z < .13:
            b = b.rstrip(b'\n')
        elif z < .17:
            b = b.replace(b'\n', b'\r\n')
        elif z < .19:
            b = b.replace(b'\n', b'\r')
        elif z < .21:
            b = b[:-1] + b' # c'
        elif z < .22:
            b = b'\xff\xfe' + text.encode('utf-16-le', 'surrogatepass')
        return b

    def path_form(self, name):
        p = '%s/%s' % (self.d, name)
        z = self.r.random()
        if z < .45:
            return '"%s"' % p
        return self.c(['"%%H/%s"' % name, '"%s"' % name, '"%%S/../../../../..%s"' % p, '"%s/./%s"' % (self.d, name), '"%s//%s"' % (self.d, name), '"%s/%%%s"' % (self.d, name), '%s' % p, '"%s' % p, '"%s" x' % p, '"%s" "q"' % p, '"/dev/null"', '"%s"' % self.d, '"/nowhere"', '""', '"%%L"', '"%%Q%s"' % p, '"%%%%H/%s"' % name, '"\\%s"' % p, '"%s"' % p.replace('r', '\\162', 1), '"%s\\""' % p, '"%s\0z"' % p, '  "%s"' % p, '\t"%s"' % p, '"%s"\t# c' % p, '"%s"# c' % p, '"%s" # c\\' % p, '"%s"\r' % p, '"%s" <a> : "x"' % p, "'%s'" % p, '"%s%s"' % ('/' * 1100, p), 'x', '"%H"'])

    def include(self, name):
        return self.c(['include ', 'include ', 'include ', 'include ', 'include ', 'include ', 'include  ', 'include', 'include\t', ' include ', '\tinclude ', 'Include ', 'include: ', 'include#', '\ufeffinclude ', 'include\r']) + self.path_form(name)

    def table(self, i):
        r = self.r
        kind = i % 4
        ls = self.body(self.c([1, 2, 3, 4, 6, 9]) if kind != 1 else self.c([5, 12, 20]))
        if kind == 3:
            many = self.c([1, 1, 2, 3, 6, 7])
            names = ['%d.%s' % (i, chr(97 + j)) for j in range(many)]
            chain = many > 3
            for j, n in enumerate(names):
                sub = self.body(self.c([0, 1, 2, 3]))
                if chain and j + 1 < many:
                    sub.insert(self.c([0, len(sub)]), 'include "%s/%s"' % (self.d, names[j + 1]))
                elif r.random() < .2:
                    sub.insert(self.c([0, len(sub)]), self.include(self.c(names + [str(i)])) if r.random() < .5 else 'include "%s/%s"' % (self.d, names[(j + 1) % many]))
                if r.random() < .03:
                    sub = []
                    text = ''
                else:
                    text = '\n'.join(sub) + '\n'
                self.write(n, self.shape(text))
            for n in names[:1] if chain else names:
                ls.insert(r.randint(0, len(ls)), self.include(n) if not chain or r.random() < .3 else 'include "%s/%s"' % (self.d, n))
        b = self.shape('\n'.join(ls) + '\n')
        if kind == 2:
            b = self.mutate(b)
        if r.random() < .004:
            b = b''
        self.write(str(i), b)

    def write(self, name, b):
        with open('%s/%s' % (self.d, name), 'wb') as f:
            f.write(b)


if __name__ == '__main__':
    folder, count, seed = sys.argv[1], int(sys.argv[2]), sys.argv[3]
    os.makedirs(folder, exist_ok=True)
    for i in range(count):
        Gen(random.Random('%s %d' % (seed, i)), folder).table(i)
