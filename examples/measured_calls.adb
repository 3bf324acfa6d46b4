--  Each call of a recursive function holds a controlled object while it lasts. The result of a call is evaluated before its object is
--  finalized, the deepest call ends first, and an exception finalizes the objects of all calls that it leaves (RM 6.5, 7.6.1, 11.4).
with Ada.Finalization; use Ada.Finalization;
with Ada.Text_IO;      use Ada.Text_IO;

procedure Measured_Calls is
   Open : Integer := 0;

   type Call is new Limited_Controlled with record
      Argument : Integer := 0;
   end record;

   overriding procedure Initialize (X : in out Call);
   overriding procedure Finalize (X : in out Call);

   procedure Initialize (X : in out Call) is
   begin
      Open := Open + 1;
   end Initialize;

   procedure Finalize (X : in out Call) is
   begin
      Put_Line ("leave" & Integer'Image (X.Argument) & " of" & Integer'Image (Open));
      Open := Open - 1;
   end Finalize;

   function Factorial (N : Integer) return Integer is
      Here : Call;
   begin
      Here.Argument := N;
      if N < 2 then
         return 1;
      end if;
      return N * Factorial (N - 1);
   end Factorial;

   --  Open is read before the object of this call is finalized, and so the result counts it
   function Held (N : Integer) return Integer is
      Here : Call;
   begin
      Here.Argument := N;
      return Open;
   end Held;
begin
   Put_Line ("factorial" & Integer'Image (Factorial (3)));
   Put_Line ("held" & Integer'Image (Held (1) + 10 * Held (2)) & ", open" & Integer'Image (Open));
   begin
      Put_Line ("factorial" & Integer'Image (Factorial (13)));
   exception
      when Constraint_Error =>
         Put_Line ("too large, open" & Integer'Image (Open));
   end;
end Measured_Calls;
