#!/usr/bin/env python3
"""Makes an image's file of a root: oci.py ROOT.tar OUT VERSION COMMIT UID

OUT is a tar file that is both an image layout of the Open Container Initiative (image-spec 1.0) and an archive of docker's, which has
manifest.json. SOURCE_DATE_EPOCH gives each date in it, so the same root gives the same bytes."""
import datetime
import gzip
import hashlib
import io
import json
import os
import sys
import tarfile

NAME = "zoprenat/registry"
LAYER = "application/vnd.oci.image.layer.v1.tar+gzip"
CONFIG = "application/vnd.oci.image.config.v1+json"
MANIFEST = "application/vnd.oci.image.manifest.v1+json"
SECOND = 1_000_000_000  # of the nanoseconds that docker counts in


def layer_of(root):
    """The root as a layer, without the files of devices, which an engine makes itself."""
    made = io.BytesIO()
    with tarfile.open(root) as old, tarfile.open(fileobj=made, mode="w", format=tarfile.PAX_FORMAT) as new:
        for member in old:
            path = member.name.removeprefix("./")
            if path.startswith(("dev/", "proc/", "sys/")):
                continue
            member.name = path or "."
            member.uname = member.gname = ""
            member.mtime = min(int(member.mtime), epoch())
            if member.islnk():
                member.linkname = member.linkname.removeprefix("./")
            member.pax_headers = {key: value for key, value in member.pax_headers.items() if key.startswith("SCHILY.xattr.")}
            new.addfile(member, old.extractfile(member) if member.isreg() else None)
    return made.getvalue()


def epoch():
    return int(os.environ["SOURCE_DATE_EPOCH"])


def to_json(value):
    return json.dumps(value, sort_keys=True, separators=(",", ":")).encode()


def digest(data):
    return hashlib.sha256(data).hexdigest()


def config_of(layer, version, commit, uid, created):
    """How the image runs: by that user, below an init, over the log on its volume."""
    return to_json({
        "created": created,
        "architecture": "amd64",
        "os": "linux",
        "config": {
            "User": f"{uid}:{uid}",
            "Env": ["PATH=/usr/local/bin:/usr/bin:/bin:/usr/share/registry/adapters:/usr/share/registry/tools", "LANG=C.UTF-8",
                    "PYTHONDONTWRITEBYTECODE=1", "REGISTRY_LISTEN=0.0.0.0:8081"],
            "Entrypoint": ["/usr/bin/tini", "--"],
            "Cmd": ["registrylog", "keep", "/var/lib/registry/log"],
            "Volumes": {"/var/lib/registry": {}},
            "ExposedPorts": {"8081/tcp": {}},
            "WorkingDir": "/",
            "StopSignal": "SIGTERM",
            # Docker's. Podman takes the other form, which has none, and is given --health-cmd.
            "Healthcheck": {"Test": ["CMD", "/usr/share/registry/health.sh"], "Interval": 10 * SECOND, "Timeout": 5 * SECOND,
                            "StartPeriod": 60 * SECOND, "Retries": 3},
            "Labels": {
                "org.opencontainers.image.title": "Schema registry for Avro whose answers are proved",
                "org.opencontainers.image.version": version,
                "org.opencontainers.image.revision": commit,
                "org.opencontainers.image.created": created,
            },
        },
        "rootfs": {"type": "layers", "diff_ids": [f"sha256:{digest(layer)}"]},
        "history": [{"created": created, "created_by": f"package --image, of commit {commit}"}],
    })


def files_of(root, version, commit, uid):
    """The files of the image's file, by their names."""
    created = datetime.datetime.fromtimestamp(epoch(), datetime.timezone.utc).strftime("%Y-%m-%dT%H:%M:%SZ")
    tag = version.replace("~", "-").replace("+", "-")
    layer = layer_of(root)
    config = config_of(layer, version, commit, uid, created)
    packed = gzip.compress(layer, 6, mtime=0)
    manifest = to_json({
        "schemaVersion": 2,
        "mediaType": MANIFEST,
        "config": described(CONFIG, config),
        "layers": [described(LAYER, packed)],
    })
    index = to_json({
        "schemaVersion": 2,
        "manifests": [described(MANIFEST, manifest) | {
            "platform": {"architecture": "amd64", "os": "linux"},
            "annotations": {"org.opencontainers.image.ref.name": tag, "io.containerd.image.name": f"docker.io/{NAME}:{tag}"},
        }],
    })
    dockers = to_json([{"Config": blob(config), "RepoTags": [f"{NAME}:{tag}"], "Layers": [blob(packed)]}])
    return {blob(data): data for data in (packed, config, manifest)} | {
        "index.json": index, "manifest.json": dockers, "oci-layout": to_json({"imageLayoutVersion": "1.0.0"})}


def described(kind, data):
    return {"mediaType": kind, "digest": f"sha256:{digest(data)}", "size": len(data)}


def blob(data):
    return f"blobs/sha256/{digest(data)}"


def main():
    root, out, version, commit, uid = sys.argv[1:]
    files = files_of(root, version, commit, uid)
    with tarfile.open(out, "w", format=tarfile.USTAR_FORMAT) as made:
        for name in ("blobs", "blobs/sha256", *sorted(files)):
            member = tarfile.TarInfo(name)
            member.mtime = epoch()
            if name in files:
                member.size, member.mode = len(files[name]), 0o644
            else:
                member.type, member.mode = tarfile.DIRTYPE, 0o755
            made.addfile(member, io.BytesIO(files.get(name, b"")))


if __name__ == "__main__":
    main()
