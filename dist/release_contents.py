"""Prints what an archive of a release contains, in the form of SPDX 2.3.

    python3 release_contents.py VERSION ARCHIVE

Each file has its sums, and the whole has the licence. The time in it is that of the files, so two runs print the same.
"""
import hashlib
import json
import sys
import tarfile
from datetime import datetime, timezone
from pathlib import Path


def describe_file(number, member, text):
    """Returns the entry of a file."""
    return {
        "SPDXID": f"SPDXRef-File-{number}",
        "fileName": "./" + member.name,
        "checksums": [
            {"algorithm": "SHA1", "checksumValue": hashlib.sha1(text).hexdigest()},
            {"algorithm": "SHA256", "checksumValue": hashlib.sha256(text).hexdigest()},
        ],
        "licenseConcluded": "MIT",
        "licenseInfoInFiles": ["NOASSERTION"],
        "copyrightText": "NOASSERTION",
    }


def verification_code(files):
    """Returns the code of SPDX for a package: the SHA-1 of the sorted SHA-1 of its files."""
    sums = sorted(it["checksums"][0]["checksumValue"] for it in files)
    return hashlib.sha1("".join(sums).encode()).hexdigest()


def find_copyright(texts):
    """Returns the lines of the licence that say whose it is."""
    lines = next(text for name, text in texts.items() if name.count("/") == 1 and name.endswith("/LICENSE")).decode()
    return "\n".join(it.strip() for it in lines.splitlines() if it.startswith("Copyright"))


def main(version, archive):
    whole = Path(archive).read_bytes()
    with tarfile.open(archive) as opened:
        members = [it for it in opened if it.isfile()]
        texts = {it.name: opened.extractfile(it).read() for it in members}
    files = [describe_file(number, it, texts[it.name]) for number, it in enumerate(members, 1)]
    time = datetime.fromtimestamp(members[0].mtime, timezone.utc).strftime("%Y-%m-%dT%H:%M:%SZ")
    package = {
        "SPDXID": "SPDXRef-Package",
        "name": "h3_qpack",
        "versionInfo": version,
        "packageFileName": Path(archive).name,
        "downloadLocation": "NOASSERTION",
        "filesAnalyzed": True,
        "packageVerificationCode": {"packageVerificationCodeValue": verification_code(files)},
        "checksums": [{"algorithm": "SHA256", "checksumValue": hashlib.sha256(whole).hexdigest()}],
        "licenseConcluded": "MIT",
        "licenseDeclared": "MIT",
        "licenseInfoFromFiles": ["MIT"],
        "copyrightText": find_copyright(texts),
        "summary": "QPACK, the header compression of HTTP/3 (RFC 9204)",
    }
    document = {
        "spdxVersion": "SPDX-2.3",
        "dataLicense": "CC0-1.0",
        "SPDXID": "SPDXRef-DOCUMENT",
        "name": f"h3_qpack-{version}",
        "documentNamespace": f"urn:h3_qpack:{version}:{hashlib.sha256(whole).hexdigest()}",
        "creationInfo": {"created": time, "creators": ["Tool: dist/release"]},
        "packages": [package],
        "files": files,
        "relationships": [
            {"spdxElementId": "SPDXRef-DOCUMENT", "relationshipType": "DESCRIBES", "relatedSpdxElement": "SPDXRef-Package"},
            *(
                {"spdxElementId": "SPDXRef-Package", "relationshipType": "CONTAINS", "relatedSpdxElement": it["SPDXID"]}
                for it in files
            ),
        ],
    }
    print(json.dumps(document, indent=1))


if __name__ == "__main__":
    main(*sys.argv[1:])
