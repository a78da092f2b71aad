package mvtgate

import "fmt"

// Profile is what the polygons of a feature are held against.
type Profile uint32

const (
	// ProfilePolygon asks that the rings of each polygon neither cross nor touch, and that its holes lie where they should.
	ProfilePolygon Profile = 0
	// ProfileFeature asks also that the polygons of one feature don't cross, touch or lie in each other, but for a polygon in
	// another's hole. For a tile that is made for it [Check] can take a time that grows as the square of its size: judge tiles of
	// others by [CheckQuickly] and [FaultsQuickly]. [Mend] can take as long, and has no quick form: bound the tile's length.
	ProfileFeature Profile = 1
)

var profileNames = [...]string{"polygon", "feature"}

// String is the name that the program takes: "polygon" or "feature".
func (it Profile) String() string {
	if int(it) < len(profileNames) {
		return profileNames[it]
	}
	return fmt.Sprintf("Profile(%d)", uint32(it))
}

// MarshalText is [Profile.String], with an error where no profile has the number.
func (it Profile) MarshalText() ([]byte, error) {
	if int(it) < len(profileNames) {
		return []byte(profileNames[it]), nil
	}
	return nil, fmt.Errorf("mvtgate: no profile has the number %d", uint32(it))
}

// UnmarshalText reads "polygon" or "feature", so that a profile can be a flag (flag.TextVar) and stand in a file of settings.
func (it *Profile) UnmarshalText(text []byte) error {
	for number, name := range profileNames {
		if string(text) == name {
			*it = Profile(number)
			return nil
		}
	}
	return fmt.Errorf("mvtgate: no profile is called %q; there are polygon and feature", text)
}
