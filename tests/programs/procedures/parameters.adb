--  Procedures with parameters: records by reference, scalar values as copies; actuals are evaluated from the left,
--  and one that raises leaves the call. An operation that is called by name shows no event (RM 6.2, 6.4, 7.6).
with Ada.Finalization; use Ada.Finalization;
with Ada.Text_IO;      use Ada.Text_IO;

procedure Parameters is
   type A is new Limited_Controlled with record
      N : Integer := 0;
   end record;

   overriding procedure Finalize (X : in out A);

   Sum : Integer := 0;

   procedure Finalize (X : in out A) is
   begin
      Put_Line ("f" & Integer'Image (X.N));
   end Finalize;

   procedure Set (X : in out A; N : Integer; Twice : Boolean) is
   begin
      X.N := N;
      if Twice then
         Set (X, 2 * N, False);
      end if;
   end Set;

   procedure Show (X : A; Y : in A) is
      V : A;
   begin
      V.N := X.N * 10 + Y.N;
      Put_Line (Integer'Image (V.N));
   end Show;

   procedure Down (N : Integer) is
   begin
      Sum := Sum + N;
      if N > 0 then
         Down (N - 1);
      end if;
   end Down;

   V, W : A;
begin
   Set (V, 3, True);
   Set (W, Sum + 1, False);
   Show (V, W);
   Down (4);
   Put_Line (Integer'Image (Sum));
   begin
      Set (V, 1 / (Sum - 10), False);
   exception
      when Constraint_Error =>
         Put_Line ("zero");
   end;
   Finalize (W);
end Parameters;
