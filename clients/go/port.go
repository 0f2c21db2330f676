package toxi

import (
	"fmt"
	"net"
	"syscall"
	"time"
)

// Between two looks whether the program has stopped listening.
const holdPause = time.Millisecond

// heldPorts are bound sockets that don't listen: a connect is refused, and no other process gets the port.
type heldPorts map[string]int

// hold binds a socket at each address, once the program has stopped listening there.
func (held heldPorts) hold(addresses map[string]string) error {
	for _, address := range addresses {
		end := time.Now().Add(stopLimit)
		for {
			err := held.bind(address)
			if err == nil {
				break
			}
			if time.Now().After(end) {
				return fmt.Errorf("another process has taken %s: %w", address, err)
			}
			time.Sleep(holdPause)
		}
	}
	return held.share(0)
}

// lend lets the program listen at them. It sets SO_REUSEADDR too, which both sockets need.
func (held heldPorts) lend() error { return held.share(1) }

func (held heldPorts) share(shared int) error {
	for _, socket := range held {
		if err := syscall.SetsockoptInt(socket, syscall.SOL_SOCKET, syscall.SO_REUSEADDR, shared); err != nil {
			return err
		}
	}
	return nil
}

func (held heldPorts) bind(address string) error {
	if _, ok := held[address]; ok {
		return nil
	}
	place, err := net.ResolveTCPAddr("tcp", address)
	if err != nil {
		return err
	}
	family := syscall.AF_INET6
	if place.IP.To4() != nil {
		family = syscall.AF_INET
	}
	socket, err := syscall.Socket(family, syscall.SOCK_STREAM|syscall.SOCK_CLOEXEC, 0)
	if err != nil {
		return err
	}
	// Else the connections that have just ended would keep the port from being bound.
	err = syscall.SetsockoptInt(socket, syscall.SOL_SOCKET, syscall.SO_REUSEADDR, 1)
	if err == nil {
		err = syscall.Bind(socket, socketAddress(place))
	}
	if err != nil {
		syscall.Close(socket)
		return err
	}
	held[address] = socket
	return nil
}

func socketAddress(place *net.TCPAddr) syscall.Sockaddr {
	if four := place.IP.To4(); four != nil {
		address := &syscall.SockaddrInet4{Port: place.Port}
		copy(address.Addr[:], four)
		return address
	}
	address := &syscall.SockaddrInet6{Port: place.Port}
	copy(address.Addr[:], place.IP.To16())
	return address
}

// release gives them up.
func (held heldPorts) release() {
	for address, socket := range held {
		syscall.Close(socket)
		delete(held, address)
	}
}
