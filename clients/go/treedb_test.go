package treedb

import (
	"bufio"
	"bytes"
	"context"
	"encoding/json"
	"errors"
	"net"
	"os"
	"path/filepath"
	"reflect"
	"strconv"
	"strings"
	"sync"
	"testing"
	"time"
)

// No test waits longer for an answer.
const deadline = 20 * time.Second

// serving answers each line by a function; an empty answer ends the connection, and "-" is none. It returns the address, and what was heard.
func serving(t *testing.T, answering func(line string) string) (string, *heard) {
	t.Helper()
	listener, err := net.Listen("tcp", "127.0.0.1:0")
	if err != nil {
		t.Fatal(err)
	}
	t.Cleanup(func() { listener.Close() })
	lines := &heard{}
	go func() {
		for {
			peer, err := listener.Accept()
			if err != nil {
				return
			}
			go func() {
				defer peer.Close()
				scanner := bufio.NewScanner(peer)
				for scanner.Scan() {
					lines.add(scanner.Text())
					answer := answering(scanner.Text())
					if scanner.Text() == `{"op":"close"}` {
						answer = `{"closed":true}`
					}
					if answer == "" {
						return
					}
					if answer != "-" {
						_, _ = peer.Write([]byte(answer + "\n"))
					}
				}
			}()
		}
	}()
	return listener.Addr().String(), lines
}

type heard struct {
	lock  sync.Mutex
	lines []string
}

func (it *heard) add(line string) {
	it.lock.Lock()
	defer it.lock.Unlock()
	it.lines = append(it.lines, line)
}

func (it *heard) all() []string {
	it.lock.Lock()
	defer it.lock.Unlock()
	return append([]string{}, it.lines...)
}

// inTurn gives one answer after another.
func inTurn(answers ...string) func(string) string {
	var lock sync.Mutex
	return func(line string) string {
		lock.Lock()
		defer lock.Unlock()
		if line == `{"op":"close"}` || len(answers) == 0 {
			return ""
		}
		answer := answers[0]
		answers = answers[1:]
		return answer
	}
}

func opened(t *testing.T, address string, options ...Option) *Client {
	t.Helper()
	db, err := Dial("tcp", address, options...)
	if err != nil {
		t.Fatal(err)
	}
	t.Cleanup(func() { db.Close() })
	return db
}

// ---- the lines that all clients replay

type step struct {
	Do        string
	Name      string
	Text      string
	Procedure string
	Arguments []string
	Key       string
	Workers   int
	Calls     [][]any
	Parents   []int64
	Request   string
	Answer    string
	Gives     map[string]any
}

func numbers(t *testing.T, texts []string) []int64 {
	t.Helper()
	var found []int64
	for _, text := range texts {
		number, err := strconv.ParseInt(text, 10, 64)
		if err != nil {
			t.Fatal(err)
		}
		found = append(found, number)
	}
	return found
}

// spoken is a value as the files have it.
func spoken(value any, err error) any {
	var refused *Refused
	if errors.As(err, &refused) {
		return map[string]any{"refused": refused.Numbers}
	}
	if err != nil {
		return err.Error()
	}
	switch value := value.(type) {
	case Answer:
		reply := []string{}
		for _, number := range value.Reply {
			reply = append(reply, strconv.FormatInt(number, 10))
		}
		if value.Recalled {
			return map[string]any{"call": value.Call, "reply": reply, "stored": value.Epoch}
		}
		return map[string]any{"call": value.Call, "reply": reply, "epoch": value.Epoch}
	case []Outcome:
		outcomes := []any{}
		for _, each := range value {
			outcomes = append(outcomes, spoken(each.Answer, each.Err))
		}
		return map[string]any{"batch": outcomes}
	case Bounds:
		return map[string]any{"bounds": map[string]int64{"steps": value.Steps, "locks": value.Locks, "emits": value.Emits}}
	case map[string]Bounds:
		named := map[string]any{}
		for name, each := range value {
			named[name] = map[string]int64{"steps": each.Steps, "locks": each.Locks, "emits": each.Emits}
		}
		return map[string]any{"bounds by name": named}
	}
	return value
}

func (it step) done(t *testing.T, db *Client) any {
	t.Helper()
	ctx := context.Background()
	var value any
	var err error
	switch it.Do {
	case "register":
		value, err = db.Register(ctx, it.Name, it.Text)
	case "register text":
		value, err = db.RegisterText(ctx, it.Text)
	case "replace text":
		value, err = db.ReplaceText(ctx, it.Text)
	case "call":
		value, err = db.CallWithKey(ctx, it.Key, it.Procedure, numbers(t, it.Arguments)...)
	case "batch":
		var calls []Request
		for _, call := range it.Calls {
			var texts []string
			for _, text := range call[1].([]any) {
				texts = append(texts, text.(string))
			}
			calls = append(calls, Request{call[0].(string), numbers(t, texts)})
		}
		value, err = db.Batch(ctx, it.Workers, calls...)
	case "grow":
		var grown int64
		grown, err = db.Grow(ctx, it.Parents...)
		value = map[string]any{"grown": grown}
	case "seal":
		var sealed int64
		sealed, err = db.Seal(ctx)
		value = map[string]any{"sealed": sealed}
	case "close":
		err = db.Close()
		value = map[string]any{"closed": true}
	default:
		t.Fatalf("no client does %q", it.Do)
	}
	return spoken(value, err)
}

// same says whether two values are one as JSON, numbers digit by digit.
func same(t *testing.T, one, other any) bool {
	t.Helper()
	var values [2]any
	for place, value := range []any{one, other} {
		text, is := value.(string)
		if !is {
			bytes, err := json.Marshal(value)
			if err != nil {
				t.Fatal(err)
			}
			text = string(bytes)
		}
		decoder := json.NewDecoder(strings.NewReader(text))
		decoder.UseNumber()
		if err := decoder.Decode(&values[place]); err != nil {
			t.Fatal(err, text)
		}
	}
	return reflect.DeepEqual(values[0], values[1])
}

func TestConformance(t *testing.T) {
	files, _ := filepath.Glob("../conformance/*.json")
	if len(files) == 0 {
		t.Skip("there are no lines to replay")
	}
	for _, file := range files {
		bytes, err := os.ReadFile(file)
		if err != nil {
			t.Fatal(err)
		}
		var told struct{ Steps []step }
		if err := json.Unmarshal(bytes, &told); err != nil {
			t.Fatal(err)
		}
		var answers []string
		for _, each := range told.Steps {
			answers = append(answers, each.Answer)
		}
		address, lines := serving(t, inTurn(answers...))
		db := opened(t, address)
		for place, each := range told.Steps {
			gives := each.done(t, db)
			if sent := lines.all(); len(sent) != place+1 || !same(t, sent[place], each.Request) {
				t.Fatalf("%s: step %d sent %q in the place of %q", file, place, sent, each.Request)
			}
			if !same(t, gives, each.Gives) {
				t.Errorf("%s: step %d gives %v in the place of %v", file, place, gives, each.Gives)
			}
		}
	}
}

// ---- connections that break

func TestWhatMayHaveBeenDone(t *testing.T) {
	listener, _ := net.Listen("tcp", "127.0.0.1:0")
	nobody := listener.Addr().String()
	listener.Close()
	_, err := Dial("tcp", nobody)
	var lost *Unanswered
	if !errors.As(err, &lost) || lost.MayHaveRun {
		t.Fatal(err)
	}
	for _, answer := range []string{"", "no JSON", "[]", "-"} {
		address, _ := serving(t, func(string) string { return answer })
		db := opened(t, address, WithTimeout(300*time.Millisecond))
		if _, err := db.Call(context.Background(), "add", 1); !errors.As(err, &lost) || !lost.MayHaveRun {
			t.Error(answer, err)
		}
		if _, err := db.Call(context.Background(), "add", 1); !errors.As(err, &lost) || lost.MayHaveRun {
			t.Error(answer, err)
		}
	}
}

func TestALateAnswerIsNeverALaterOnes(t *testing.T) {
	goOn := make(chan struct{})
	address, _ := serving(t, func(line string) string {
		if strings.Contains(line, "[2]") {
			<-goOn
			return `{"call":0,"reply":[2]}`
		}
		return `{"call":1,"reply":[3]}`
	})
	db := opened(t, address)
	ctx, cancel := context.WithCancel(context.Background())
	time.AfterFunc(100*time.Millisecond, cancel)
	if _, err := db.Call(ctx, "get", 2); !errors.Is(err, context.Canceled) {
		t.Fatal(err)
	}
	close(goOn)
	if err := db.Reconnect(); err != nil {
		t.Fatal(err)
	}
	if answer, err := db.Call(context.Background(), "get", 3); err != nil || answer.Reply[0] != 3 {
		t.Fatal(answer, err)
	}
}

func TestOnce(t *testing.T) {
	address, lines := serving(t, inTurn("", "", `{"call":7,"reply":[5],"stored":2}`))
	db := opened(t, address)
	ctx, cancel := context.WithTimeout(context.Background(), deadline)
	defer cancel()
	answer, err := db.CallOnce(ctx, NewKey(), "add", 0, 5)
	if err != nil || !reflect.DeepEqual(answer, Answer{7, 2, []int64{5}, true}) {
		t.Fatal(answer, err)
	}
	sent := lines.all()
	if len(sent) != 3 || sent[0] != sent[2] || !strings.Contains(sent[0], `"key":"`) {
		t.Fatal(sent)
	}
	soon, cancelSoon := context.WithTimeout(context.Background(), 300*time.Millisecond)
	defer cancelSoon()
	address, _ = serving(t, func(string) string { return "" })
	var lost *Unanswered
	if _, err = opened(t, address).CallOnce(soon, NewKey(), "add"); !errors.As(err, &lost) || !lost.MayHaveRun {
		t.Fatal(err)
	}
	db.Close()
	if _, err = db.CallOnce(ctx, NewKey(), "add"); !errors.Is(err, ErrClosed) {
		t.Fatal(err)
	}
}

func TestPool(t *testing.T) {
	address, lines := serving(t, inTurn(`{"call":0,"reply":[1]}`, "", `{"call":1,"reply":[2]}`, `{"call":2,"reply":[3]}`))
	pool := NewPool(1, "tcp", address)
	ctx, cancel := context.WithTimeout(context.Background(), deadline)
	defer cancel()
	call := func() (answer Answer, err error) {
		err = pool.Do(ctx, func(db *Client) error { answer, err = db.Call(ctx, "add"); return err })
		return answer, err
	}
	if answer, err := call(); err != nil || answer.Reply[0] != 1 {
		t.Fatal(answer, err)
	}
	if _, err := call(); err == nil {
		t.Fatal("a lost connection is no answer")
	}
	if answer, err := call(); err != nil || answer.Reply[0] != 2 {
		t.Fatal(answer, err)
	}
	if answer, err := pool.CallOnce(ctx, "one", "add"); err != nil || answer.Reply[0] != 3 {
		t.Fatal(answer, err)
	}
	soon, cancelSoon := context.WithTimeout(ctx, 50*time.Millisecond)
	defer cancelSoon()
	_ = pool.Do(ctx, func(*Client) error {
		if err := pool.Do(soon, func(*Client) error { return nil }); !errors.Is(err, context.DeadlineExceeded) {
			t.Error(err)
		}
		return nil
	})
	pool.Close()
	if _, err := call(); !errors.Is(err, ErrClosed) {
		t.Fatal(err)
	}
	if len(lines.all()) != 5 {
		t.Fatal(lines.all())
	}
}

func TestReadingAndTheControl(t *testing.T) {
	address, lines := serving(t, inTurn(`{"error":[611]}`, `{"call":0,"reply":[1,2,3,4,5,6,7,8]}`, `{"call":1,"reply":[]}`))
	db := opened(t, address)
	if record, err := db.Read(context.Background(), 7); err != nil || len(record) != 8 {
		t.Fatal(record, err)
	}
	if _, err := db.Read(context.Background(), 9); !errors.Is(err, ErrMissingNode) {
		t.Fatal(err)
	}
	if !bytes.Contains([]byte(lines.all()[0]), []byte("get v1 n0 7")) {
		t.Fatal(lines.all())
	}
	address, _ = serving(t, inTurn(`{"epoch":3,"generation":1,"calls":9,"connections":2,"nodes":40,"procedures":4,"refusals":5,"places":256,"browsers":1,"volume":0}`, `{"stopping":true}`))
	if status, err := StatusOf(context.Background(), "tcp", address); err != nil || status != (Status{3, 1, 9, 2, 40, 4, 5, 256, 1, 0}) {
		t.Fatal(status, err)
	}
	if err := Stop(context.Background(), "tcp", address); err != nil {
		t.Fatal(err)
	}
}
