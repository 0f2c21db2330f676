package toxi

import (
	"fmt"
	"math"
	"strconv"
	"strings"
)

// A Toxic is what a connection meets: Latency, Bandwidth, SlowClose, Timeout, ResetPeer, Slicer or LimitData.
type Toxic interface {
	settings() settings
}

// A Stream is one of the two directions of a connection.
type Stream string

// Upstream is from the client to the server, and Downstream from the server to the client.
const (
	Upstream   Stream = "upstream"
	Downstream Stream = "downstream"
)

// A Toxicity is the share of the links that meet a toxic: a text of thousandths, such as "0.25". Empty: every link meets it.
type Toxicity string

// Share is the toxicity of a share of 0.0 to 1.0. The program refuses one that isn't whole thousandths.
func Share(share float64) Toxicity {
	rounded := math.Round(share*1000) / 1000
	if math.Abs(share-rounded) > 1e-9 {
		rounded = share
	}
	return Toxicity(strconv.FormatFloat(rounded, 'f', -1, 64))
}

// Common is what every toxic has.
type Common struct {
	// Name is the type and the stream if empty, such as `latency_downstream`.
	Name string
	// Stream is Downstream if empty.
	Stream   Stream
	Toxicity Toxicity
}

type attribute struct {
	key      string
	value    int64
	required bool
}

type settings struct {
	kind       string
	common     Common
	attributes []attribute
}

// lines is the table of a toxic in a script. The program takes 0 for an attribute that is left out.
func (settings settings) lines() []string {
	lines := []string{"", "[[rule.toxic]]", "type = " + quoted(settings.kind)}
	texts := []struct{ key, value string }{
		{"name", settings.common.Name}, {"stream", string(settings.common.Stream)}, {"toxicity", string(settings.common.Toxicity)},
	}
	for _, text := range texts {
		if text.value != "" {
			lines = append(lines, text.key+" = "+quoted(text.value))
		}
	}
	attributes := []string{}
	for _, attribute := range settings.attributes {
		if attribute.value != 0 || attribute.required {
			attributes = append(attributes, fmt.Sprintf("%s = %d", attribute.key, attribute.value))
		}
	}
	return append(lines, "attributes = { "+strings.Join(attributes, ", ")+" }")
}
