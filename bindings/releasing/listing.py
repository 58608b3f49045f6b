"""What a release says of itself: the verdicts, what is inside, and the sums of its files."""
import datetime, hashlib, json, pathlib, re
from .tree import CRATE_VERSION, Refused, TOP, VERSION, epoch, last_counts, output_of

KIT = pathlib.Path(output_of('rt', 'doc').strip()).parent


def listed_crates():
    """The crates of crates.txt, each with those that it names."""
    lines = [line for line in (TOP / 'crates.txt').read_text().splitlines() if ':' in line and line[0] != '#']
    return {head.split()[0]: named.split() for head, _, named in (line.partition(':') for line in lines)}


def kit_crates(name='sourcemap_c'):
    """The crates of the kit that stand below a crate."""
    listed, known, waiting = listed_crates(), set(), [name]
    while waiting:
        crate = waiting.pop()
        if crate not in known:
            known.add(crate)
            waiting += listed[crate] if crate in listed else named_by_kit(crate)
    return sorted(known - set(listed))


def named_by_kit(crate):
    return re.findall(r'^dep (\S+)$', (KIT / f'rlibs/{crate}.rlib/format').read_text(), re.MULTILINE)


def write_proof(dist, commit, lines):
    """The verdicts of `rt ci` on this commit, in the order of crates.txt: whether a run kept them or made them is left out."""
    proved = {found[1] for found in (re.match(r'rt: (\S+)(?: is kept:| proved$)', line) for line in lines) if found}
    refused = sorted({found[1] for found in (re.match(r'(?:rt: )?must-fail (\S+): refused', line) for line in lines) if found})
    missing = sorted(set(listed_crates()) - proved)
    if missing:
        raise Refused(f'rt ci has no verdict on {" ".join(missing)}')
    (dist / 'PROOF.txt').write_text('\n'.join([
        f'commit {commit}', output_of('rt', 'version').strip(), (TOP / 'HANDLES').read_text().strip(), '',
        *(f'{name}: proved' for name in listed_crates() if name in proved), '',
        *(f'must-fail {name}: refused' for name in refused), '', last_counts(lines), '']))


LICENCES = {'LICENSE-MIT': 'MIT', 'LICENSE-APACHE': 'Apache-2.0'}


def licence_of(crate):
    """The licences of a crate of the kit, by the files beside its sources; NOASSERTION if they have no known name."""
    folder = KIT / 'rattle' / crate
    found = [LICENCES[file] for file in LICENCES if (folder / file).exists()]
    text = (folder / 'LICENSE').read_text() if (folder / 'LICENSE').exists() else ''
    if 'Permission is hereby granted, free of charge' in ' '.join(text.split()):
        found.append('MIT')
    return ' OR '.join(found) or 'NOASSERTION'


def write_spdx(dist, commit):
    def package(name, version, licence):
        return {'SPDXID': f'SPDXRef-{name.replace("_", "-")}', 'name': name, 'versionInfo': version, 'downloadLocation': 'NOASSERTION',
                'filesAnalyzed': False, 'licenseConcluded': licence, 'licenseDeclared': licence, 'copyrightText': 'NOASSERTION'}

    kit = output_of('rt', 'version').strip()
    parts = [package(name, kit, licence_of(name)) for name in kit_crates()]
    made = datetime.datetime.fromtimestamp(epoch(), datetime.timezone.utc).strftime('%Y-%m-%dT%H:%M:%SZ')
    (dist / 'sourcemap.spdx.json').write_text(json.dumps({
        'spdxVersion': 'SPDX-2.3', 'dataLicense': 'CC0-1.0', 'SPDXID': 'SPDXRef-DOCUMENT', 'name': f'sourcemap-{VERSION}',
        'documentNamespace': f'urn:furzehearth:sourcemap:{VERSION}:{commit}',
        'creationInfo': {'created': made, 'creators': ['Tool: bindings/release']},
        'packages': [package('sourcemap', f'{VERSION} ({CRATE_VERSION}), commit {commit}', 'BSD-3-Clause'), *parts],
        'relationships': [{'spdxElementId': 'SPDXRef-DOCUMENT', 'relationshipType': 'DESCRIBES',
                           'relatedSpdxElement': 'SPDXRef-sourcemap'},
                          *({'spdxElementId': 'SPDXRef-sourcemap', 'relationshipType': 'STATIC_LINK',
                             'relatedSpdxElement': part['SPDXID']} for part in parts)],
    }, indent=1) + '\n')


def write_sums(dist):
    files = sorted(file for file in dist.iterdir())
    (dist / 'SHA256SUMS').write_text(''.join(f'{hashlib.sha256(file.read_bytes()).hexdigest()}  {file.name}\n' for file in files))
