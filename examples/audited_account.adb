--  Functions ask about a record that is passed by reference, and a controlled object undoes what a payment did where it is not kept: also
--  where a return statement leaves the block of the object early (RM 6.2, 6.5, 7.6.1).
with Ada.Finalization; use Ada.Finalization;
with Ada.Text_IO;      use Ada.Text_IO;

procedure Audited_Account is
   type Account is record
      Balance : Integer := 0;
      Limit   : Integer := 0;
   end record;

   Mine : Account;

   type Payment is new Limited_Controlled with record
      Amount : Integer := 0;
      Kept   : Boolean := False;
   end record;

   overriding procedure Finalize (X : in out Payment);

   procedure Finalize (X : in out Payment) is
   begin
      if not X.Kept then
         Mine.Balance := Mine.Balance + X.Amount;
         Put_Line ("undo" & Integer'Image (X.Amount));
      end if;
   end Finalize;

   function Available (A : Account) return Integer is
   begin
      return A.Balance + A.Limit;
   end Available;

   function Is_Covered (A : Account) return Boolean is
   begin
      return Available (A) >= 0;
   end Is_Covered;

   --  What is left then; nothing is paid where the account does not cover it
   function Paid (Amount : Integer; Fee : Integer) return Integer is
   begin
      for Part in 1 .. 2 loop
         declare
            P : Payment;
         begin
            if Part = 1 then
               P.Amount := Amount;
            else
               P.Amount := Fee;
            end if;
            Mine.Balance := Mine.Balance - P.Amount;
            if not Is_Covered (Mine) then
               return Available (Mine);
            end if;
            P.Kept := True;
         end;
      end loop;
      return Available (Mine);
   end Paid;
begin
   Mine.Balance := 100;
   Mine.Limit := 20;
   Put_Line ("left" & Integer'Image (Paid (70, 1)));
   Put_Line ("short of" & Integer'Image (Paid (60, 1)));
   Put_Line ("available" & Integer'Image (Available (Mine)));
end Audited_Account;
