"""Records random sessions, replays them, and looks whether the takes tell where they are off."""
