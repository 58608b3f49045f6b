"""findings.py MAP FOLDER NAME [GENERATED]: prints what a check finds in MAP, beside the generated text, the name of the map's
file and the files of sources in FOLDER, as `./sourcemap check` does. FOLDER and NAME may be empty."""
import sys
from pathlib import Path

sys.path.insert(0, str(Path(__file__).resolve().parents[1] / 'python'))

from sourcemap import check  # noqa: E402


def main(path, folder, name, *texts):
    report = check(Path(path).read_bytes(), *(Path(text).read_bytes() for text in texts), name=name or None,
                   sources=folder or None)
    for finding in report.findings:
        print(f'MAP:{finding}')
    print(f'{report.invalid} invalid, {report.suspicious} suspicious, {len(report.findings)} shown')
    return int(not report.is_valid)


sys.exit(main(*sys.argv[1:]))
