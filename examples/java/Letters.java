import static vm.Sys.*;

/** Words in arrays of bytes and chars: turned round, shifted, counted and printed. */
public class Letters {
    static void put(byte[] word) {
        for (int i = 0; i < word.length; i++) {
            putc(word[i]);
        }
        putc('\n');
    }

    static byte[] turned(byte[] word) {
        byte[] out = new byte[word.length];
        for (int i = 0; i < word.length; i++) {
            out[word.length - 1 - i] = word[i];
        }
        return out;
    }

    static byte[] shifted(byte[] word, int by) {
        byte[] out = new byte[word.length];
        for (int i = 0; i < word.length; i++) {
            int c = word[i];
            out[i] = (byte) (c >= 'a' && c <= 'z' ? 'a' + (c - 'a' + by) % 26 : c);
        }
        return out;
    }

    static char[] widened(byte[] word) {
        char[] out = new char[word.length];
        for (int i = 0; i < out.length; i++) {
            out[i] = (char) word[i];
        }
        return out;
    }

    static void main() {
        byte[] word = {'o', 'n', ' ', 't', 'h', 'e', ' ', 'f', 'l', 'y', (byte) 233};
        put(word);
        put(turned(word));
        put(shifted(word, 13));
        put(shifted(shifted(word, 13), 13));
        short[] counts = new short[26];
        for (int i = 0; i < word.length; i++) {
            if (word[i] >= 'a') {
                counts[word[i] - 'a'] += 20000;
            }
        }
        for (int i = 0; i < 5; i++) {
            print(counts['e' - 'a'] * i + counts['o' - 'a']);
        }
        counts[0] += (short) 40000;
        print(counts[0]);
        char[] chars = widened(word);
        print(chars[0]);
        print(chars[10]);
        print(++chars[10]);
    }
}
