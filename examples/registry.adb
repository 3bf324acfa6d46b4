--  A registry of accounts (RM 4.1): a lookup gives an access value, and what it designates is read, changed, passed
--  on and closed without a variable in between.
with Ada.Finalization; use Ada.Finalization;
with Ada.Text_IO;      use Ada.Text_IO;
with Ada.Unchecked_Deallocation;

procedure Registry is
   type Account is new Controlled with record
      Number  : Integer := 0;
      Balance : Integer := 0;
   end record;

   overriding procedure Finalize (X : in out Account);

   type Account_Ref is access Account;

   procedure Close is new Ada.Unchecked_Deallocation (Account, Account_Ref);

   type Row;
   type Link is access Row;
   type Row is record
      Key  : Integer := 0;
      Held : Account_Ref;
      Next : Link;
   end record;

   First : Link;

   procedure Finalize (X : in out Account) is
   begin
      Put_Line ("account" & Integer'Image (X.Number) & " closes with" & Integer'Image (X.Balance));
   end Finalize;

   --  the row of a key, or null
   function Find (Key : Integer) return Link is
      Here : Link := First;
   begin
      while Here /= null and then Here.Key /= Key loop
         Here := Here.Next;
      end loop;
      return Here;
   end Find;

   procedure Open (Key : Integer) is
      Made : Link := new Row;
   begin
      Made.Key := Key;
      Made.Held := new Account;
      Made.Held.Number := Key;
      Made.Next := First;
      First := Made;
   end Open;

   procedure Pay (X : in out Account; Amount : Integer) is
   begin
      X.Balance := X.Balance + Amount;
   end Pay;
begin
   Open (1);
   Open (2);
   Find (1).Held.Balance := 100;
   Pay (Find (2).Held.all, 30);
   Find (2).Held.Balance := Find (2).Held.Balance + Find (1).Held.Balance;
   Put_Line (Integer'Image (Find (1).Held.Balance) & Integer'Image (Find (2).Held.Balance));
   Close (Find (1).Held);
   Put_Line (Boolean'Image (Find (1).Held = null));
   Find (3).Key := 4;
exception
   when Constraint_Error => Put_Line ("no such row");
end Registry;
