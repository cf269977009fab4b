"""What the scripts of this folder try on a built program. Nothing of it proves anything."""
