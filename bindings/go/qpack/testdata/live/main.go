// Command live has a client and a server of quic-go in one program exchange 200 requests, each with a field that the server
// returns. Their header compression is what the import path github.com/marten-seemann/qpack leads to. It prints how many
// requests were answered rightly.
package main

import (
	"crypto/ecdsa"
	"crypto/elliptic"
	"crypto/rand"
	"crypto/tls"
	"crypto/x509"
	"fmt"
	"io"
	"log"
	"math/big"
	"net"
	"net/http"
	"strings"
	"time"

	"github.com/lucas-clemente/quic-go/http3"
)

const requests = 200

// newCertificate returns a certificate that holds for an hour.
func newCertificate() (tls.Certificate, error) {
	key, err := ecdsa.GenerateKey(elliptic.P256(), rand.Reader)
	if err != nil {
		return tls.Certificate{}, err
	}
	template := &x509.Certificate{
		SerialNumber: big.NewInt(1),
		DNSNames:     []string{"localhost"},
		NotAfter:     time.Now().Add(time.Hour),
	}
	der, err := x509.CreateCertificate(rand.Reader, template, template, &key.PublicKey, key)
	return tls.Certificate{Certificate: [][]byte{der}, PrivateKey: key}, err
}

// answer returns the field of a request.
func answer(w http.ResponseWriter, r *http.Request) {
	w.Header().Set("X-Echo", r.Header.Get("X-Say"))
	fmt.Fprintln(w, r.URL.Path)
}

// ask sends a request, and reports whether the answer has its field and its path.
func ask(client *http.Client, address string, number int) (bool, error) {
	path := fmt.Sprintf("/%d", number)
	request, err := http.NewRequest("GET", "https://"+address+path, nil)
	if err != nil {
		return false, err
	}
	say := strings.Repeat(fmt.Sprintf("value-%d;", number), 1+number%40)
	request.Header.Set("X-Say", say)
	response, err := client.Do(request)
	if err != nil {
		return false, err
	}
	defer response.Body.Close()
	body, err := io.ReadAll(response.Body)
	return response.Header.Get("X-Echo") == say && string(body) == path+"\n", err
}

func main() {
	certificate, err := newCertificate()
	if err != nil {
		log.Fatal(err)
	}
	socket, err := net.ListenPacket("udp", "127.0.0.1:0")
	if err != nil {
		log.Fatal(err)
	}
	server := &http3.Server{
		TLSConfig: http3.ConfigureTLSConfig(&tls.Config{Certificates: []tls.Certificate{certificate}}),
		Handler:   http.HandlerFunc(answer),
	}
	go func() { log.Fatal(server.Serve(socket)) }()
	transport := &http3.RoundTripper{TLSClientConfig: &tls.Config{InsecureSkipVerify: true}}
	client, right := &http.Client{Transport: transport, Timeout: 30 * time.Second}, 0
	for number := 0; number < requests; number++ {
		ok, err := ask(client, socket.LocalAddr().String(), number)
		if err != nil {
			log.Fatal(err)
		}
		if ok {
			right++
		}
	}
	fmt.Printf("%d of %d requests were answered rightly\n", right, requests)
}
