"""What the tools beside the proved program share. Nothing of it is proved; it calls the program, and believes what that
answers."""
