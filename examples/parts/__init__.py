"""What a panel sheet is made of: coded pictures, Exif, ICC profile, gain map data, and the sheet itself."""
