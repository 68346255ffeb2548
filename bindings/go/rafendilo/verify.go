package rafendilo

import (
	"crypto"
	"crypto/ecdsa"
	"crypto/ed25519"
	"crypto/elliptic"
	"crypto/rsa"
	_ "crypto/sha256" // for crypto.SHA256
	_ "crypto/sha512" // for crypto.SHA384 and crypto.SHA512
	"math"
	"math/big"
)

var curves = map[Algorithm]struct {
	curve elliptic.Curve
	hash  crypto.Hash
}{
	P256: {elliptic.P256(), crypto.SHA256},
	P384: {elliptic.P384(), crypto.SHA384},
	P521: {elliptic.P521(), crypto.SHA512},
}

// IsSignature says whether the question's signature is one, by Go's standard library: the Verifier
// of who names none. It says no under a key that MayVerify does not take, and to what crypto/rsa
// does not: an exponent above 2^31 - 1, which no tool makes, and a signature shorter than the
// modulus, which OpenSSH reads as if zeros stood before it.
func IsSignature(question Question) bool {
	mayVerify, _ := MayVerify(question.Key)
	parts, err := Strings(question.Key)
	if err != nil || !mayVerify {
		return false
	}
	switch question.Algorithm {
	case Ed25519:
		return len(parts) == 2 && len(parts[1]) == ed25519.PublicKeySize &&
			ed25519.Verify(parts[1], question.Message, question.Signature)
	case P256, P384, P521:
		return len(parts) == 3 && isECDSA(parts[2], question)
	case RSASHA256:
		return len(parts) == 3 && isRSA(parts[1], parts[2], crypto.SHA256, question)
	case RSASHA512:
		return len(parts) == 3 && isRSA(parts[1], parts[2], crypto.SHA512, question)
	default: // DSA, of which MayVerify takes no key
		return false
	}
}

// number is that of an mpint, which is positive: in keys by MayVerify, and in signatures anyway.
func number(digits []byte) *big.Int {
	return new(big.Int).SetBytes(digits)
}

func digestOf(hash crypto.Hash, message []byte) []byte {
	state := hash.New()
	state.Write(message)
	return state.Sum(nil)
}

func isECDSA(point []byte, question Question) bool {
	of := curves[question.Algorithm]
	x, y := elliptic.Unmarshal(of.curve, point)
	numbers, err := Strings(question.Signature)
	if x == nil || err != nil || len(numbers) != 2 {
		return false
	}
	r, s := number(numbers[0]), number(numbers[1])
	key := ecdsa.PublicKey{Curve: of.curve, X: x, Y: y}
	return ecdsa.Verify(&key, digestOf(of.hash, question.Message), r, s)
}

func isRSA(exponent, modulus []byte, hash crypto.Hash, question Question) bool {
	e, n := number(exponent), number(modulus)
	if n.Bit(0) == 0 {
		return false
	}
	if !e.IsInt64() || e.Int64() > math.MaxInt32 || e.Int64() < 3 || e.Bit(0) == 0 {
		return false
	}
	key := rsa.PublicKey{N: n, E: int(e.Int64())}
	digest := digestOf(hash, question.Message)
	return rsa.VerifyPKCS1v15(&key, hash, digest, question.Signature) == nil
}

// check fails with why there is no question, or else with ErrNotSigned where the verifier does not
// say yes.
func (verify Verifier) check(asked Question, err error) error {
	if err != nil {
		return err
	}
	if !verify.says(asked) {
		return ErrNotSigned
	}
	return nil
}

// says is what the verifier answers.
func (verify Verifier) says(asked Question) bool {
	if verify == nil {
		verify = IsSignature
	}
	return verify(asked)
}
