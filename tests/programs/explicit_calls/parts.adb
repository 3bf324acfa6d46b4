--  Components, objects of access values and formals are actuals of the library's operations, also in a Finalize (RM 7.6).
with Ada.Finalization; use Ada.Finalization;
with Ada.Text_IO;      use Ada.Text_IO;

procedure Parts is
   type Inner is new Controlled with record
      N : Integer := 1;
   end record;

   type Ref is access Inner;

   type Outer is new Limited_Controlled with record
      Left  : Inner;
      Right : Ref;
   end record;

   overriding procedure Finalize (X : in out Outer);

   procedure Finalize (X : in out Outer) is
   begin
      Finalize (X.Left);
      Finalize (X.Right.all);
      Finalize (Limited_Controlled (X));
      Put_Line ("F" & Integer'Image (X.Left.N + X.Right.N));
   end Finalize;

   procedure Clean (X : in out Inner) is
   begin
      Finalize (X);
      Initialize (X);
      Adjust (X);
      X.N := X.N + 1;
   end Clean;

   O : Outer;
begin
   O.Right := new Inner;
   Clean (O.Left);
   Clean (O.Right.all);
   Put_Line (Integer'Image (O.Left.N) & Integer'Image (O.Right.N));
end Parts;
