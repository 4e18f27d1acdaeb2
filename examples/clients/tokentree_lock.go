// The lock of a tokentree node, for Go with its own library alone.
//	lock, err := Acquire("/tmp/nodes/desk-1.sock", 5*time.Second)
//	// You hold the lock. Select on lock.Said: whatever comes there means that the lock is lost.
//	err = lock.Release() // ErrLost if it was
// As a program it holds the lock until standard input ends: go run tokentree_lock.go SOCKET SECONDS
package main

import (
	"bufio"
	"errors"
	"fmt"
	"io"
	"net"
	"os"
	"time"
)

// ErrLost says that the lock was lost before it was released, or that the node did not confirm the release.
var ErrLost = errors.New("the lock was lost")

// Lock is a lock that is held. Said has the node's next line, and is closed after it.
type Lock struct {
	Said chan string
	desk net.Conn
}

// Acquire waits for the lock for up to limit. The error is os.ErrDeadlineExceeded if it was not granted in time, another one
// if the node is not there or has no room.
func Acquire(path string, limit time.Duration) (*Lock, error) {
	desk, err := net.Dial("unix", path)
	if err != nil {
		return nil, err
	}
	desk.SetReadDeadline(time.Now().Add(limit))
	io.WriteString(desk, "lock\n")
	lines := bufio.NewReader(desk)
	if word, err := lines.ReadString('\n'); word != "granted\n" {
		desk.Close()
		return nil, fmt.Errorf("the node answered %q: %w", word, err)
	}
	desk.SetReadDeadline(time.Time{})
	lock := &Lock{make(chan string, 1), desk}
	go func() { word, _ := lines.ReadString('\n'); lock.Said <- word; close(lock.Said) }()
	return lock, nil
}

// Release gives the lock back.
func (lock *Lock) Release() error {
	defer lock.desk.Close()
	io.WriteString(lock.desk, "unlock\n")
	lock.desk.SetReadDeadline(time.Now().Add(10 * time.Second))
	if <-lock.Said != "released\n" {
		return ErrLost
	}
	return nil
}

func main() {
	limit, _ := time.ParseDuration(os.Args[2] + "s")
	lock, err := Acquire(os.Args[1], limit)
	if errors.Is(err, os.ErrDeadlineExceeded) {
		os.Exit(124)
	} else if err != nil {
		fmt.Fprintln(os.Stderr, err)
		os.Exit(125)
	}
	fmt.Println("granted")
	input, word, status := make(chan error), "released", 0
	go func() { _, err := io.Copy(io.Discard, os.Stdin); input <- err }()
	select {
	case <-input:
	case <-lock.Said:
	}
	if lock.Release() != nil {
		word, status = "lost", 122
	}
	fmt.Println(word)
	os.Exit(status)
}
