// What CDK prints of each record of an SDF, as rows of a table. compare/codes/run.py calls it.
import java.io.StringReader;
import java.nio.charset.StandardCharsets;
import java.nio.file.Files;
import java.nio.file.Paths;
import java.util.Locale;
import org.openscience.cdk.graph.matrix.TopologicalMatrix;
import org.openscience.cdk.interfaces.IAtomContainer;
import org.openscience.cdk.io.MDLV2000Reader;
import org.openscience.cdk.qsar.descriptors.molecular.AtomCountDescriptor;
import org.openscience.cdk.qsar.descriptors.molecular.WienerNumbersDescriptor;
import org.openscience.cdk.qsar.result.DoubleArrayResult;
import org.openscience.cdk.silent.SilentChemObjectBuilder;
import org.openscience.cdk.tools.manipulator.AtomContainerManipulator;

public class Cdk {
    static IAtomContainer read(String record) throws Exception {
        try (MDLV2000Reader reader = new MDLV2000Reader(new StringReader(record))) {
            return reader.read(SilentChemObjectBuilder.getInstance().newAtomContainer());
        }
    }

    static String wiener(String record) {
        try {
            WienerNumbersDescriptor descriptor = new WienerNumbersDescriptor();
            descriptor.initialise(SilentChemObjectBuilder.getInstance());
            DoubleArrayResult found = (DoubleArrayResult) descriptor.calculate(read(record)).getValue();
            return found.get(0) + "," + found.get(1);
        } catch (Throwable fault) {
            return ",";
        }
    }

    static String matrix(String record) {
        try {
            IAtomContainer molecule = AtomContainerManipulator.removeHydrogens(read(record));
            int[][] far = TopologicalMatrix.getMatrix(molecule);
            long[] parts = new long[2];
            long three = 0, largest = 0;
            for (int i = 0; i < far.length; i++) {
                for (int j = 0; j < i; j++) {
                    parts[far[i][j] % 2] += far[i][j];
                    three += far[i][j] == 3 ? 1 : 0;
                    largest = Math.max(largest, far[i][j]);
                }
            }
            return far.length + "," + (parts[0] + parts[1]) + "," + parts[0] + "," + parts[1] + "," + three + "," + largest;
        } catch (Throwable fault) {
            return ",,,,,";
        }
    }

    static String count(String record) {
        try {
            AtomCountDescriptor descriptor = new AtomCountDescriptor();
            descriptor.initialise(SilentChemObjectBuilder.getInstance());
            return descriptor.calculate(read(record)).getValue().toString();
        } catch (Throwable fault) {
            return "";
        }
    }

    public static void main(String[] words) throws Exception {
        Locale.setDefault(Locale.ROOT);
        String text = new String(Files.readAllBytes(Paths.get(words[0])), StandardCharsets.ISO_8859_1);
        System.out.println("record,WPATH,WPOL,atoms,W,even,odd,polarity,largest,AtomCount");
        int number = 0;
        for (String record : text.split("(?m)^\\$\\$\\$\\$.*\\r?\\n?")) {
            if (!record.trim().isEmpty()) {
                number++;
                System.out.println(number + "," + wiener(record) + "," + matrix(record) + "," + count(record));
            }
        }
    }
}
