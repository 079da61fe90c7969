"""The files of the folder that a script runs in."""

import os
import shutil

from waplay_tools.random_scripts.kinds import Assets, Link


def write_assets(folder: str, assets: Assets) -> None:
    """Writes assets into a folder, by their paths."""
    for name, asset in assets.items():
        path = os.path.join(os.fsencode(folder), name.encode())
        os.makedirs(os.path.dirname(path), exist_ok=True)
        if isinstance(asset, Link):
            os.symlink(asset.target.encode(), path)
        elif asset is None:
            os.mkdir(path)
        else:
            with open(path, "wb") as file:
                file.truncate(asset) if isinstance(asset, int) else file.write(asset)


def put_assets(assets: Assets) -> None:
    """Leaves these assets alone in the folder that it runs in."""
    for entry in os.scandir():
        shutil.rmtree(entry) if entry.is_dir(follow_symlinks=False) else os.remove(entry)
    write_assets(os.curdir, assets)
