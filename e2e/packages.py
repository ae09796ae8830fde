"""apt and pip through the proxy, from small repositories of our own. No state of the system is read or written."""

import email.utils
import gzip
import hashlib
import importlib.util
import io
import os
import pathlib
import sys
import tempfile
import zipfile

from harness import Skipped, case, environment, equal, holds, need, ran
from origin import Answer, lines, response
from world import PORT

VERSIONS = ["1.0", "1.1"]
DATE_LINE = b"Last-Modified: Sun, 06 Nov 1994 08:49:37 GMT"


def build_package(folder, version):
    """A package of a file that says its version. Answers its bytes."""
    root = f"{folder}/root-{version}"
    os.makedirs(f"{root}/DEBIAN")
    os.makedirs(f"{root}/usr/share/polipo-try")
    with open(f"{root}/DEBIAN/control", "w") as file:
        file.write(control(version))
    with open(f"{root}/usr/share/polipo-try/version", "w") as file:
        file.write(version + "\n" + "x" * 100_000)
    target = f"{folder}/built-{version}.deb"
    command = ["dpkg-deb", "--root-owner-group", "--build", root, target]
    done = ran(command)
    equal(done.returncode, 0, f"dpkg-deb's status, which says {done.stderr.decode(errors='replace')}")
    with open(target, "rb") as file:
        return file.read()


def control(version):
    return (
        f"Package: polipo-try\nVersion: {version}\nArchitecture: all\nMaintainer: Nobody <nobody@localhost>\n"
        "Description: a file for a try\n"
    )


def index_of(packages):
    """The list of these packages, by version."""
    entries = []
    for version, text in packages.items():
        digest = hashlib.sha256(text).hexdigest()
        place = f"Filename: ./polipo-try_{version}_all.deb\nSize: {len(text)}\nSHA256: {digest}\n"
        entries.append(control(version) + place)
    return "\n".join(entries).encode()


def release_of(files):
    """The list of these files."""
    text = "Origin: nobody\nSuite: try\nCodename: try\nDate: Sun, 06 Nov 1994 08:49:37 UTC\nSHA256:\n"
    for name, data in files.items():
        text += f" {hashlib.sha256(data).hexdigest()} {len(data)} {name}\n"
    return text.encode()


def publish(world, packages):
    """Puts a repository of these packages on the origin."""
    index = index_of(packages)
    files = {"Packages": index, "Packages.gz": gzip.compress(index, mtime=0)}
    for name, data in {**files, "Release": release_of(files)}.items():
        world.origin.on(f"/repository/./{name}", Answer(response(data, DATE_LINE)))
        world.origin.on(f"/repository/{name}", Answer(response(data, DATE_LINE)))
    for version, text in packages.items():
        world.origin.on(f"/repository/polipo-try_{version}_all.deb", Answer(response(text, DATE_LINE)))
        world.origin.on(f"/repository/./polipo-try_{version}_all.deb", Answer(response(text, DATE_LINE)))


def make_folders(world, folder, repository="/repository"):
    for name in ["etc/apt/apt.conf.d", "etc/apt/preferences.d", "etc/apt/sources.list.d", "etc/apt/trusted.gpg.d",
                 "state/lists/partial", "cache/archives/partial", "log", "here"]:
        os.makedirs(f"{folder}/{name}")
    with open(f"{folder}/status", "w"):
        pass
    with open(f"{folder}/etc/apt/sources.list", "w") as file:
        file.write(f"deb [trusted=yes] {world.url(repository)} ./\n")
    with open(f"{folder}/apt.conf", "w") as file:
        file.write(
            f'Dir "{folder}/";\n'
            f'Dir::Etc "{folder}/etc/apt";\n'
            f'Dir::State "{folder}/state";\n'
            f'Dir::State::status "{folder}/status";\n'
            f'Dir::Cache "{folder}/cache";\n'
            f'Dir::Log "{folder}/log";\n'
            'Dir::Bin::Methods "/usr/lib/apt/methods";\n'
            'Dir::Bin::dpkg "/usr/bin/dpkg";\n'
            'Dir::Bin::gpg "/usr/bin/gpgv";\n'
            'APT::Architecture "amd64";\n'
            'APT::Architectures { "amd64"; };\n'
            'APT::Sandbox::User "root";\n'
            'Debug::NoLocking "true";\n'
            'Acquire::Languages "none";\n'
            f'Acquire::http::Proxy "http://127.0.0.1:{PORT}";\n'
            'Acquire::http::Timeout "40";\n'
            'Acquire::Retries "0";\n'
        )


def apt_get(folder, *words):
    """Runs apt-get over the folder's own configuration and state."""
    variables = environment(APT_CONFIG=f"{folder}/apt.conf", LC_ALL="C", DEBIAN_FRONTEND="noninteractive")
    done = ran(["apt-get", *words], cwd=f"{folder}/here", env=variables)
    said = (done.stdout + done.stderr).decode(errors="replace")
    equal(done.returncode, 0, f"the status of apt-get {' '.join(words)}, which says {said}")
    return said


@case
def apt_updates_its_lists_and_downloads_a_package(world):
    need("apt-get")
    need("dpkg-deb")
    with tempfile.TemporaryDirectory() as folder:
        make_folders(world, folder)
        packages = {version: build_package(folder, version) for version in VERSIONS}
        publish(world, packages)
        world.origin.clear()
        said = apt_get(folder, "update")
        holds("Err:" not in said, f"an update without an error in {said}")
        apt_get(folder, "download", "polipo-try")
        apt_get(folder, "download", "polipo-try=1.0")
        for version in VERSIONS:
            with open(f"{folder}/here/polipo-try_{version}_all.deb", "rb") as file:
                equal(file.read() == packages[version], True, f"whether the package {version} is the origin's")
        paths = [ask.path for ask in world.origin.asked]
        holds(any(path.endswith(".deb") for path in paths), f"the package is asked through the proxy, of {paths}")
        for ask in world.origin.asked:
            holds(ask.head.endswith(b"via: 1.1 polipo\r\n\r\n"), "each ask comes through the proxy")
        # a second update asks whether what it has is still so
        apt_get(folder, "update")
        return f"{len(world.origin.asked)} asks"


def validated(data, *fields):
    """An origin's answers on a file that may change: it has a tag of its bytes, and is checked by it."""
    tag = b'"' + hashlib.md5(data).hexdigest().encode() + b'"'
    fields = [b"Date: " + email.utils.formatdate(usegmt=True).encode(), b"ETag: " + tag, *fields]

    def answer(ask):
        if ask.field(b"if-none-match") == tag:
            return Answer(lines(b"HTTP/1.1 304 Not Modified", *fields))
        return Answer(response(data, *fields))

    return answer


def asked_for(world, end):
    """How often the origin was asked for a path that ends so."""
    return sum(ask.path.endswith(end) for ask in world.origin.asked)


def publish_checked(world, packages, day):
    """Puts a repository on the origin as a mirror has it: old files, which say nothing of how long they are fresh. Its index is
    of that day."""
    index = index_of(packages)
    files = {"Packages": index, "Packages.gz": gzip.compress(index, mtime=0)}
    files["Release"] = release_of(files)
    dates = {name: b"Last-Modified: Sun, %02d Nov 1994 08:49:37 GMT" % day for name in files}
    files.update((f"polipo-try_{version}_all.deb", text) for version, text in packages.items())
    for name, data in files.items():
        for path in [f"/mirror/{name}", f"/mirror/./{name}"]:
            world.origin.on(path, validated(data, dates.get(name, DATE_LINE)))


@case
def apt_sees_an_index_that_changed_between_two_updates(world):
    need("apt-get")
    need("dpkg-deb")
    with tempfile.TemporaryDirectory() as folder:
        make_folders(world, folder, "/mirror")
        packages = {version: build_package(folder, version) for version in VERSIONS}
        world.origin.clear()
        for day, known in [(6, VERSIONS[:1]), (13, VERSIONS)]:
            publish_checked(world, {version: packages[version] for version in known}, day)
            apt_get(folder, "update")
            for _ in range(2):
                apt_get(folder, "download", "polipo-try")
                file = pathlib.Path(folder, f"here/polipo-try_{known[-1]}_all.deb")
                holds(file.read_bytes() == packages[known[-1]], f"the newest package of {known}")
                file.unlink()
        for version in VERSIONS:
            equal(asked_for(world, f"polipo-try_{version}_all.deb"), 1, f"asks for the package {version}, which is wanted twice")


def wheel(version):
    """A package of Python that holds one file, which says its version."""
    info = f"polipo_try-{version}.dist-info"
    files = {
        "polipo_try.py": f"version = {version!r}\n",
        f"{info}/METADATA": f"Metadata-Version: 2.1\nName: polipo-try\nVersion: {version}\n",
        f"{info}/WHEEL": "Wheel-Version: 1.0\nGenerator: try\nRoot-Is-Purelib: true\nTag: py3-none-any\n",
    }
    record = "".join(f"{name},,\n" for name in [*files, f"{info}/RECORD"])
    buffer = io.BytesIO()
    with zipfile.ZipFile(buffer, "w") as archive:
        for name, text in {**files, f"{info}/RECORD": record}.items():
            archive.writestr(name, text)
    return buffer.getvalue()


def pip_download(world, folder):
    """Has pip fetch the newest version. Answers the name and the bytes of each file that it fetched."""
    words = [sys.executable, "-m", "pip", "--isolated", "--proxy", f"http://127.0.0.1:{PORT}", "download", "--no-deps", "--quiet"]
    words += ["--no-cache-dir", "--disable-pip-version-check"]
    words += ["--index-url", world.url("/simple/"), "--trusted-host", "127.0.0.1"]
    variables = environment(PIP_CONFIG_FILE=os.devnull, HOME=folder)
    with tempfile.TemporaryDirectory() as target:
        done = ran([*words, "--dest", target, "polipo-try"], cwd=folder, env=variables)
        equal(done.returncode, 0, f"pip's status, which says {done.stderr.decode(errors='replace')}")
        return {file.name: file.read_bytes() for file in pathlib.Path(target).iterdir()}


@case
def pip_sees_an_index_that_changed_between_two_downloads(world):
    if importlib.util.find_spec("pip") is None:
        raise Skipped("pip")
    wheels = {version: wheel(version) for version in VERSIONS}
    world.origin.clear()
    with tempfile.TemporaryDirectory() as folder:
        for known in [VERSIONS[:1], VERSIONS]:
            links = "".join(f'<a href="/files/polipo_try-{version}-py3-none-any.whl">x</a>\n' for version in known)
            page = f"<!DOCTYPE html><html><body>\n{links}</body></html>\n".encode()
            world.origin.on("/simple/polipo-try/", validated(page, b"Content-Type: text/html", b"Cache-Control: max-age=600"))
            for version in known:
                text = validated(wheels[version], b"Content-Type: application/zip", b"Cache-Control: max-age=365000000")
                world.origin.on(f"/files/polipo_try-{version}-py3-none-any.whl", text)
            for _ in range(2):
                wanted = {f"polipo_try-{known[-1]}-py3-none-any.whl": wheels[known[-1]]}
                holds(pip_download(world, folder) == wanted, f"the newest package of {known}")
    for ask in world.origin.asked:
        holds(ask.head.endswith(b"via: 1.1 polipo\r\n\r\n"), "each ask comes through the proxy")
    for version in VERSIONS:
        equal(asked_for(world, f"{version}-py3-none-any.whl"), 1, f"asks for the package {version}, which is wanted twice")
