// Code made by tests/tables of the program's own table. DO NOT EDIT.

package toxi

// Latency delays all data by latency plus or minus jitter.
type Latency struct {
	Common
	// Latency: how much later data leaves. In milliseconds, 0 to 3,600,000.
	Latency int64
	// Jitter: each piece leaves up to so much earlier or later than that. In milliseconds, 0 to 3,600,000.
	Jitter int64
	// Until: stops at that time, and from then on all passes; 0: never. In milliseconds, 0 to 3,600,000.
	Until int64
	// From: begins at that time, and until then all passes; 0: at once. In milliseconds, 0 to 3,600,000.
	From int64
}

func (toxic Latency) settings() settings {
	return settings{"latency", toxic.Common, []attribute{
		{"latency", toxic.Latency, false},
		{"jitter", toxic.Jitter, false},
		{"until", toxic.Until, false},
		{"from", toxic.From, false},
	}}
}

// Bandwidth passes so many kilobytes (of 1000 bytes) a second.
type Bandwidth struct {
	Common
	// Rate: how many pass each second. In kilobytes (of 1000 bytes) a second, 1 to 1,000,000; it has to be given.
	Rate int64
	// Until: stops at that time, and from then on all passes; 0: never. In milliseconds, 0 to 3,600,000.
	Until int64
	// From: begins at that time, and until then all passes; 0: at once. In milliseconds, 0 to 3,600,000.
	From int64
}

func (toxic Bandwidth) settings() settings {
	return settings{"bandwidth", toxic.Common, []attribute{
		{"rate", toxic.Rate, true},
		{"until", toxic.Until, false},
		{"from", toxic.From, false},
	}}
}

// SlowClose delays the closing.
type SlowClose struct {
	Common
	// Delay: how much later the link closes. In milliseconds, 0 to 3,600,000.
	Delay int64
}

func (toxic SlowClose) settings() settings {
	return settings{"slow_close", toxic.Common, []attribute{
		{"delay", toxic.Delay, false},
	}}
}

// Timeout drops all data, and closes after a time.
type Timeout struct {
	Common
	// Timeout: when the link closes; 0: never. In milliseconds, 0 to 3,600,000.
	Timeout int64
	// From: begins at that time, and until then all passes; 0: at once. In milliseconds, 0 to 3,600,000.
	From int64
	// After: begins behind so many bytes, if that is sooner; 0: not for their sake. In bytes, 0 to 1,099,511,627,776.
	After int64
}

func (toxic Timeout) settings() settings {
	return settings{"timeout", toxic.Common, []attribute{
		{"timeout", toxic.Timeout, false},
		{"from", toxic.From, false},
		{"after", toxic.After, false},
	}}
}

// ResetPeer resets the connection after a time.
type ResetPeer struct {
	Common
	// Timeout: when the connection is reset. In milliseconds, 0 to 3,600,000.
	Timeout int64
	// After: resets behind so many bytes, and not before that time; 0: at that time. In bytes, 0 to 1,099,511,627,776.
	After int64
}

func (toxic ResetPeer) settings() settings {
	return settings{"reset_peer", toxic.Common, []attribute{
		{"timeout", toxic.Timeout, false},
		{"after", toxic.After, false},
	}}
}

// Slicer cuts data into pieces, with a wait before each.
type Slicer struct {
	Common
	// AverageSize: the size of a piece. In bytes, 1 to 1,000,000; it has to be given.
	AverageSize int64
	// SizeVariation: a piece has up to so many bytes more or fewer; below average_size. In bytes.
	SizeVariation int64
	// Delay: the wait before each piece. In microseconds, 0 to 3,600,000,000.
	Delay int64
	// Until: stops at that time, and from then on all passes; 0: never. In milliseconds, 0 to 3,600,000.
	Until int64
	// From: begins at that time, and until then all passes; 0: at once. In milliseconds, 0 to 3,600,000.
	From int64
}

func (toxic Slicer) settings() settings {
	return settings{"slicer", toxic.Common, []attribute{
		{"average_size", toxic.AverageSize, true},
		{"size_variation", toxic.SizeVariation, false},
		{"delay", toxic.Delay, false},
		{"until", toxic.Until, false},
		{"from", toxic.From, false},
	}}
}

// LimitData closes the connection after so many bytes.
type LimitData struct {
	Common
	// Bytes: how many pass before it closes. In bytes, 0 to 1,099,511,627,776.
	Bytes int64
}

func (toxic LimitData) settings() settings {
	return settings{"limit_data", toxic.Common, []attribute{
		{"bytes", toxic.Bytes, false},
	}}
}
