using Enc;
static class Ten
{
    static void Main()
    {
        using (EncModule module = EncModule.Load("examples/bank/bank"))
        {
            module.Apply(EncDelta.Load("examples/bank/bank1"));
            uint print = module.Find("Account.Print");
            System.Console.WriteLine("{0:x8} {1} @{2}", print, module.Name(print), module.Locate(print));
            System.Console.WriteLine("line " + module.Points(print)[0].StartLine);
            if (!module.TryApply(EncDelta.Load("examples/bank/bank1"), out EncRefusal refusal))
                System.Console.WriteLine(refusal + ": " + refusal.Words);
        }
    }
}
