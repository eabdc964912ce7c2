"""What the scripts tftp-transfers, tftp-explain and tftp-ladder have in common."""
