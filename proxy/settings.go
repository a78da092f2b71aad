package main

import (
	"errors"
	"flag"
	"fmt"
	"io"
	"net/url"
	"os"
	"regexp"
	"runtime"
	"strconv"
	"strings"
	"time"

	"mvtgate"

	"mvtgate-proxy/internal/gate"
	"mvtgate-proxy/internal/relay"
	"mvtgate-proxy/internal/tiles"
)

const (
	program = "mvtgate-proxy"
	// An environment variable is this and the flag's name, in capitals and with '_' for '-'.
	environment = "MVTGATE_PROXY_"
	// ZOOM/COLUMN/ROW with the endings of vector tiles, or with none.
	tilePaths = `/[0-9]+/[0-9]+/[0-9]+(\.(mvt|pbf|vector\.pbf))?$`
	// So many times its length a tile takes beside what it is judged in: as it was sent, unpacked, and in the room that grows for it.
	lengthsOfTile = 8
)

// bytes is a flag for a size: a number of bytes, or of K, M or G (1024, its square, its cube).
type bytes int64

var units = map[byte]int64{'K': 1 << 10, 'M': 1 << 20, 'G': 1 << 30}

func (it bytes) MarshalText() ([]byte, error) {
	for _, unit := range "GMK" {
		if size := units[byte(unit)]; it != 0 && int64(it)%size == 0 {
			return []byte(strconv.FormatInt(int64(it)/size, 10) + string(unit)), nil
		}
	}
	return []byte(strconv.FormatInt(int64(it), 10)), nil
}

func (it *bytes) UnmarshalText(text []byte) error {
	size := int64(1)
	if last := len(text) - 1; last > 0 && units[text[last]] != 0 {
		size, text = units[text[last]], text[:last]
	}
	number, err := strconv.ParseInt(string(text), 10, 64)
	if err != nil || number < 0 || number > 1<<50/size {
		return errors.New("a size is a number of bytes, or one with K, M or G after it")
	}
	*it = bytes(number * size)
	return nil
}

// settings are what the flags and the environment say.
type settings struct {
	upstream, listen, admin, host, paths, types, healthPath string
	mode                                                    relay.Mode
	profile                                                 mvtgate.Profile
	exact, notEmpty, drop, isVersion                        bool
	lastGood, remember, maxPacked, maxTile, memory          bytes
	judgements, connections, logLines                       int
	judgeWait, upstreamTime, clientTime, drainTime          time.Duration

	url   *url.URL
	known *tiles.Known
}

func flagsOf(it *settings) *flag.FlagSet {
	flags := flag.NewFlagSet(program, flag.ContinueOnError)
	flags.StringVar(&it.upstream, "upstream", "", "the `URL` of the server whose tiles are judged, such as http://127.0.0.1:3000; needed")
	flags.StringVar(&it.listen, "listen", "127.0.0.1:8080", "the `ADDRESS` to listen on; the port 0 is a free one")
	flags.StringVar(&it.admin, "admin", "127.0.0.1:8081", "the `ADDRESS` of /metrics and /healthz; none where it is empty")
	it.mode = relay.Report
	flags.TextVar(&it.mode, "mode", it.mode, "what is done with a tile that does not pass: report, refuse or mend")
	flags.TextVar(&it.profile, "profile", it.profile, "what polygons are held against: polygon or feature")
	flags.BoolVar(&it.exact, "exact", false, "name a tile's first fault, however long that takes by the profile feature")
	flags.BoolVar(&it.notEmpty, "not-empty", false, "refuse tiles of no bytes, which are valid")
	flags.BoolVar(&it.drop, "drop", false, "with --mode mend: leave out features that cannot be mended")
	flags.TextVar(&it.lastGood, "last-good", bytes(0), "keep the last good tiles, of so many bytes (`SIZE`) together, and send them in place of refusals; 0 keeps none")
	flags.TextVar(&it.remember, "remember", bytes(16<<20), "keep verdicts of so many bytes (`SIZE`) together; 0 keeps none")
	flags.StringVar(&it.paths, "path", tilePaths, "the `PATTERN` (a regular expression) of the path of a tile's address")
	flags.StringVar(&it.types, "type", tiles.MediaType, "the content `TYPES` of tiles at any address, with commas between them")
	flags.StringVar(&it.host, "host", "", "the `NAME` in the Host header upstream; the client's where it is empty")
	flags.TextVar(&it.maxPacked, "max-packed", bytes(64<<20), "the longest tile as it is sent, in bytes (`SIZE`)")
	flags.TextVar(&it.maxTile, "max-tile", bytes(64<<20), "the longest tile when it is unpacked, in bytes (`SIZE`)")
	flags.TextVar(&it.memory, "memory", bytes(4<<30), "the bytes (`SIZE`) that tiles may take together; at least 40 times the longest tile, with --mode mend up to 1G more")
	flags.IntVar(&it.judgements, "judgements", runtime.NumCPU(), "how many tiles are judged at one time")
	flags.DurationVar(&it.judgeWait, "judge-wait", 10*time.Second, "how long a tile waits for its turn")
	flags.DurationVar(&it.upstreamTime, "upstream-time", 30*time.Second, "how long the upstream server may take for a tile, or for the headers of other content")
	flags.DurationVar(&it.clientTime, "client-time", 30*time.Second, "how long a client may take for a request's headers, and for each part of a body or an answer")
	flags.DurationVar(&it.drainTime, "drain-time", 30*time.Second, "how long requests that are under way may take after SIGTERM")
	flags.IntVar(&it.connections, "connections", 10000, "how many connections of clients there are at one time")
	flags.IntVar(&it.logLines, "log-lines", 10, "how many lines a second the log has at most")
	flags.StringVar(&it.healthPath, "health-path", "/", "the `PATH` that /healthz asks the upstream server for")
	flags.BoolVar(&it.isVersion, "version", false, "say the version")
	return flags
}

// read reads the words and the environment; what the words say counts more.
func read(words []string, said io.Writer) (*settings, error) {
	it := &settings{}
	flags := flagsOf(it)
	flags.SetOutput(said)
	flags.Usage = func() { usage(flags, said) }
	var wrong error
	flags.VisitAll(func(of *flag.Flag) {
		name := environment + strings.ToUpper(strings.ReplaceAll(of.Name, "-", "_"))
		if value, isThere := os.LookupEnv(name); isThere && wrong == nil {
			if err := flags.Set(of.Name, value); err != nil {
				wrong = fmt.Errorf("%s: %w", name, err)
			}
		}
	})
	if wrong != nil {
		return nil, wrong
	}
	if err := flags.Parse(words); err != nil {
		return nil, err
	}
	if flags.NArg() > 0 {
		return nil, fmt.Errorf("there is no word %q", flags.Arg(0))
	}
	if it.isVersion {
		return it, nil
	}
	return it, it.check()
}

func usage(flags *flag.FlagSet, said io.Writer) {
	fmt.Fprintf(said, "usage: %s --upstream URL [FLAG..]\n\nJudges the vector tiles of a map server before it sends them. Each flag can be an environment\nvariable too: %sUPSTREAM for --upstream.\n\n", program, environment)
	flags.VisitAll(func(of *flag.Flag) {
		value, about := flag.UnquoteUsage(of)
		fmt.Fprintf(said, "  --%s %s\n        %s", of.Name, value, about)
		if of.DefValue != "" && of.DefValue != "false" {
			fmt.Fprintf(said, " (%s)", of.DefValue)
		}
		fmt.Fprintln(said)
	})
}

// check says what is wrong with the settings, and completes them.
func (it *settings) check() error {
	upstream, err := url.Parse(it.upstream)
	if err != nil || upstream.Host == "" || upstream.Scheme != "http" && upstream.Scheme != "https" {
		return fmt.Errorf("--upstream is to be a URL such as http://127.0.0.1:3000, and is %q", it.upstream)
	}
	if upstream.User != nil {
		return errors.New("--upstream has a name or a password, which wouldn't be sent to the server")
	}
	it.url = upstream
	paths, err := regexp.Compile(it.paths)
	if err != nil {
		return fmt.Errorf("--path: %w", err)
	}
	it.known = &tiles.Known{Paths: paths, Types: map[string]bool{}}
	for _, name := range strings.Split(it.types, ",") {
		if name = strings.ToLower(strings.TrimSpace(name)); name != "" {
			it.known.Types[name] = true
		}
	}
	if it.judgements < 1 || it.connections < 1 || it.logLines < 1 {
		return errors.New("--judgements, --connections and --log-lines are to be 1 or more")
	}
	if it.judgeWait < 0 || it.upstreamTime <= 0 || it.clientTime <= 0 || it.drainTime < 0 {
		return errors.New("times are to be above 0")
	}
	if least := bytes(it.leastMemory()); it.memory < least || it.memory < 2*it.maxPacked {
		return fmt.Errorf("--memory is %d, and a tile of --max-tile may take %d: give more, or a lower --max-tile and --max-packed", it.memory, least)
	}
	if _, err := url.ParseRequestURI(it.healthPath); err != nil || !strings.HasPrefix(it.healthPath, "/") {
		return fmt.Errorf("--health-path is to be a path such as /, and is %q", it.healthPath)
	}
	return nil
}

// leastMemory is how many bytes the longest tile may take.
func (it *settings) leastMemory() int64 {
	longest := int64(it.maxTile)
	most := gate.JudgingMemory(longest)
	if it.mode == relay.Mend {
		longestMended := longest
		if it.profile == mvtgate.ProfileFeature && longestMended > gate.LongestMendedByFeature {
			longestMended = gate.LongestMendedByFeature
		}
		if mending := gate.MendingMemory(longestMended); mending > most {
			most = mending
		}
	}
	return most + lengthsOfTile*longest
}

// heap is how many bytes Go's heap may take: tiles that are under way, and what is kept.
func (it *settings) heap() int64 { return int64(it.memory) + int64(it.lastGood) + int64(it.remember) }

// healthURL is what /healthz asks for: the path below the upstream server's URL.
func (it *settings) healthURL() *url.URL {
	path, _ := url.ParseRequestURI(it.healthPath)
	joined := it.url.JoinPath(path.EscapedPath())
	joined.RawQuery = path.RawQuery
	return joined
}
