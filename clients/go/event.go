package toxi

// A Link tells how a connection ended: its number, from 1, the bytes written upstream and downstream, and the word of each end, which is closed,
// reset, open or broken.
type Link struct {
	Proxy   string `json:"proxy"`
	Number  int    `json:"link"`
	Up      int64  `json:"up"`
	UpEnd   string `json:"up_end"`
	Down    int64  `json:"down"`
	DownEnd string `json:"down_end"`
}

// A Total has the number of links of a proxy that has ended, and the sums of their bytes.
type Total struct {
	Proxy string `json:"proxy"`
	Links int    `json:"links"`
	Up    int64  `json:"up"`
	Down  int64  `json:"down"`
}

// An event is a line of `serve --json`. Which fields it has is told by its first one.
type event struct {
	Event string `json:"event"`
	Link
	Links   int    `json:"links"`
	Address string `json:"address"`
}
